//! The stored data of the test programs in crates and of tests/replay_test.py, which tests/expected works out in Python, is what
//! this reading gives.
use std::fs;
use std::path::Path;

use reference::*;

fn stored(path: &str) -> Vec<u8> {
    fs::read(Path::new(env!("CARGO_MANIFEST_DIR")).join("../..").join(path)).expect("stored data")
}

fn lines(path: &str) -> Vec<String> {
    String::from_utf8(stored(path)).expect("text").lines().map(str::to_string).collect()
}

fn number(bytes: &mut &[u8]) -> usize {
    let (number, rest) = bytes.split_first_chunk::<2>().expect("a number");
    *bytes = rest;
    usize::from(u16::from_le_bytes(*number))
}

fn part<'a>(bytes: &mut &'a [u8]) -> &'a [u8] {
    let length = number(bytes);
    let (part, rest) = bytes.split_at(length);
    *bytes = rest;
    part
}

fn words(part: &[u8]) -> Vec<u64> {
    part.chunks_exact(8).map(|b| u64::from_le_bytes(b.try_into().expect("eight bytes"))).collect()
}

#[test]
fn vecop_prints() {
    for program in ["vecop", "test_vecop"] {
        let (given, mut printed) = (stored(&format!("crates/{program}/stdin")), Vec::new());
        let mut rest = given.as_slice();
        if program == "vecop" {
            printed = vecop(rest);
            rest = &[];
        }
        while let Some((length, after)) = rest.split_first_chunk::<4>() {
            let (input, after) = after.split_at(u32::from_le_bytes(*length) as usize);
            printed.extend(vecop(input));
            rest = after;
        }
        assert!(rest.is_empty());
        let (printed, expected) = (String::from_utf8(printed).expect("text"), lines(&format!("crates/{program}/stdout")));
        for (k, (ours, theirs)) in printed.lines().zip(&expected).enumerate() {
            assert_eq!(ours, theirs, "{program}, line {k}");
        }
        assert_eq!(printed.lines().count(), expected.len());
    }
}

#[test]
fn queries_are_taken() {
    let given = stored("crates/test_query/stdin");
    let rest = &mut given.as_slice();
    for line in lines("crates/test_query/stdout") {
        match take_query(part(rest)) {
            Ok(q) => assert!(line.starts_with("asked ") && line.ends_with(&format!(" {}", q.allowance)), "{line}"),
            Err(r) => assert_eq!(line, format!("refused {} {} {}", r.number, r.fields[0], r.fields[1])),
        }
    }
    assert!(rest.is_empty());
}

/// Of the operators' cases only that they are read: `what` is 1 for a merge.
#[test]
fn rows_are_merged() {
    let given = stored("crates/test_binaryop/stdin");
    let rest = &mut given.as_slice();
    for line in lines("crates/test_binaryop/stdout") {
        let (&[what, allowance, ..], after) = rest.split_first_chunk::<4>().expect("a case");
        *rest = after;
        let lengths = [number(rest), number(rest)];
        let [mut destination, source] = lengths.map(|n| {
            let (row, after) = rest.split_at(8 * n);
            *rest = after;
            words(row)
        });
        if what == 1 {
            let word = match merge(&mut destination, &source, usize::from(allowance)) {
                Merged::Done => "done",
                Merged::Overlapping => "overlapping",
                Merged::Unequal => "refused 6",
                Merged::TooMuchAllowed => "refused 13",
            };
            assert_eq!(destination.iter().fold(word.to_string(), |text, r| format!("{text} {r:016x}")), line);
        }
    }
    assert!(rest.is_empty());
}

/// The positions that the program prints behind `at` are its own.
#[test]
fn vectors_are_taken() {
    let (given, expected) = (stored("crates/test_vectors/stdin"), lines("crates/test_vectors/stdout"));
    let mut rest = given.as_slice();
    for line in expected {
        let labels = part(&mut rest);
        let readings = vec![0; number(&mut rest)];
        let taken = match take_vector(0, labels, &readings) {
            Ok(v) => format!("vector {} {} {} {}", v.series.len(), v.points, v.grid.start, v.grid.step),
            Err(r) => format!("{} {}", r.number, r.fields[1]),
        };
        assert_eq!(Some(taken.as_str()), line.split(" at").next());
    }
    assert!(rest.is_empty());
}

fn replayed(name: &str, case: &[u8]) {
    let rest = &mut &case[..];
    let room = Room { labels: number(rest), readings: number(rest) };
    let numbers = words(part(rest));
    let query = part(rest).to_vec();
    let (left_labels, left) = (part(rest).to_vec(), words(part(rest)));
    let (right_labels, right) = (part(rest).to_vec(), words(part(rest)));
    let (labels, readings) = (part(rest).to_vec(), words(part(rest)));
    assert!(rest.is_empty(), "{name}");
    let expected = match call(&Call { query, left_labels, left, right_labels, right, room }) {
        Err(r) => (vec![r.number, r.fields[0], r.fields[1], 0, 0, 0, 0, 0], vec![], vec![]),
        Ok(a) => {
            let grid = [a.grid.start, u64::from(a.grid.step)];
            let sizes = [a.series as u64, a.points as u64, grid[0], grid[1], a.labels.len() as u64];
            ([&[0, 0, 0], &sizes[..]].concat(), a.labels, a.readings)
        }
    };
    assert_eq!((numbers, labels, readings), expected, "{name}");
}

#[test]
fn examples_are_replayed() {
    let given = stored("tests/replayed.cases");
    let rest = &mut given.as_slice();
    let sample = number(rest);
    for k in 0..sample {
        replayed(&format!("case {k} of the sample"), part(rest));
    }
    let mut examples = 0;
    while !rest.is_empty() {
        let name = String::from_utf8(part(rest).to_vec()).expect("text");
        replayed(&name, part(rest));
        examples += 1;
    }
    assert_eq!((sample, examples), (576, 433));
}
