//! Each known difference with the smallest input that shows it, shown again at every run.
use reference::{Call, Grid, Join, Labels, Matching, Operator, Query, Series, Vector, MISSING};

use crate::cases::{call, labels, plain, ROOM};
use crate::compare::{compare, Known, Verdict};
use crate::rust::{self, Given};

fn one(labels: Labels, row: &[f64]) -> Series {
    Series { labels, row: row.iter().map(|v| if v.is_nan() { MISSING } else { v.to_bits() }).collect() }
}

fn side(points: usize, series: Vec<Series>) -> Vector {
    Vector::hourly(points, series)
}

fn tagged(key: &[u8], value: &[u8], row: &[f64]) -> Series {
    one(labels(b"", &[(key, value)]), row)
}

fn bare(row: &[f64]) -> Series {
    one(labels(b"", &[]), row)
}

/// Inputs that show it, a smallest one first.
pub fn examples(known: Known) -> Vec<(&'static str, Call)> {
    let query = plain;
    let given = |q: &Query, left: Vector, right: Vector| call(q, &left, &right, ROOM);
    match known {
        Known::RefusedOperator => [("1 ^ 1", Operator::Pow), ("1 atan2 1", Operator::Atan2)]
            .map(|(what, op)| (what, given(&query(op), side(1, vec![bare(&[1.0])]), side(1, vec![bare(&[1.0])]))))
            .to_vec(),
        Known::UnequalPoints => vec![
            ("two empty sides", given(&query(Operator::Add), side(0, vec![]), side(1, vec![]))),
            ("+ on rows of 1 and 2", given(&query(Operator::Add), side(1, vec![bare(&[1.0])]), side(2, vec![bare(&[1.0, 2.0])]))),
            (
                "`and` on rows of 2 and 1",
                given(&query(Operator::And), side(2, vec![bare(&[1.0, 2.0])]), side(1, vec![bare(&[1.0])])),
            ),
            (
                "`and` on rows of 1 and 2",
                given(&query(Operator::And), side(1, vec![bare(&[1.0])]), side(2, vec![bare(&[1.0, 2.0])])),
            ),
            (
                "`or` on rows of 1 and 2, keys unlike",
                given(&query(Operator::Or), side(1, vec![bare(&[1.0])]), side(2, vec![tagged(b"a", b"", &[1.0, 2.0])])),
            ),
        ],
        Known::UnequalGrids => {
            let on = |start: u64, step: u32, series: Vec<Series>| Vector {
                grid: Grid { start, step },
                ..side(series.first().map_or(0, |s| s.row.len()), series)
            };
            let one = || vec![bare(&[1.0])];
            let two = || vec![bare(&[1.0, 1.0])];
            let join = Query { join: Join::GroupRight, ..query(Operator::Add) };
            vec![
                ("two empty sides", given(&query(Operator::Add), on(0, 1, vec![]), on(0, 2, vec![]))),
                ("+ from 0 and from 1", given(&query(Operator::Add), on(0, 1, one()), on(1, 1, one()))),
                ("+ with steps of 1 and of 2", given(&query(Operator::Add), on(0, 1, two()), on(0, 2, two()))),
                ("+ group_right() from 0 and from 1", given(&join, on(0, 1, one()), on(1, 1, one()))),
                (
                    "`or` from 0 and from 1, keys unlike",
                    given(&query(Operator::Or), on(0, 1, one()), on(1, 1, vec![tagged(b"a", b"", &[1.0])])),
                ),
            ]
        }
        Known::OtherAllowance => {
            let allowing = |allowance: usize| Query { allowance, ..query(Operator::Add) };
            let join = Query { join: Join::GroupLeft, ..allowing(3) };
            let one = || side(3, vec![bare(&[1.0; 3])]);
            let two = || side(3, vec![bare(&[1.0; 3]), bare(&[1.0; 3])]);
            let sharing_one = side(3, vec![bare(&[1.0, f64::NAN, f64::NAN]), bare(&[1.0; 3])]);
            vec![
                ("+ of two series that share a point, none allowed", given(&allowing(0), sharing_one, one())),
                ("+ of two series that share three points, three allowed", given(&allowing(3), two(), one())),
                ("+ group_left() on two that share three points, three allowed", given(&join, one(), two())),
            ]
        }
        Known::MissingRight => {
            let compared = |op, bool_flag, left: Series| {
                given(&Query { bool_flag, ..query(op) }, side(1, vec![left]), side(1, vec![bare(&[f64::NAN])]))
            };
            let payload = Series { labels: labels(b"", &[]), row: vec![0x7ff8_0000_0000_0001] };
            vec![
                ("1 != N", compared(Operator::NotEq, false, bare(&[1.0]))),
                ("1 != bool N", compared(Operator::NotEq, true, bare(&[1.0]))),
                ("1 > bool N", compared(Operator::Gt, true, bare(&[1.0]))),
                ("a payload, == N", compared(Operator::Eql, false, payload)),
            ]
        }
        Known::JoinUsesUp => {
            let join = Query { join: Join::GroupLeft, ..query(Operator::Add) };
            let two = side(1, vec![bare(&[1.0]), bare(&[2.0])]);
            let all = Query { matching: Matching::On, join_list: vec![b"*".to_vec()], ..join.clone() };
            let shown_by_second = side(1, vec![bare(&[1.0]), tagged(b"c", b"", &[1.0])]);
            let ones = side(1, vec![tagged(b"c", b"", &[1.0]), bare(&[1.0])]);
            vec![
                ("two many-side series of a key", given(&join, two, side(1, vec![bare(&[1.0])]))),
                ("a duplicate that only the second many-side series shows", given(&all, shown_by_second, ones)),
            ]
        }
        Known::WhichDuplicate => {
            // Two keys with a duplicate each. Which one the Rust names hangs on its hasher: one of the two orders shows it.
            let twice = |a: &[u8], b: &[u8]| {
                let series = [a, b, a, b].map(|value| tagged(b"a", value, &[1.0])).to_vec();
                let right = side(1, vec![tagged(b"a", b"", &[1.0]), tagged(b"a", b"x", &[1.0])]);
                given(&query(Operator::Add), side(1, series), right)
            };
            let mut both = vec![("two duplicates", twice(b"", b"x")), ("the same, keys exchanged", twice(b"x", b""))];
            both.sort_by_key(|(_, c)| compare(c) != Verdict::Known(known));
            both.truncate(1);
            // Of one many-side series the merge of c="a" comes first in answer order, and that of c="b" fails first.
            let on = Query { matching: Matching::On, join: Join::GroupLeft, ..query(Operator::Add) };
            let by_c = Query { join_list: vec![b"c".to_vec()], ..on };
            let ones = [b"a0", b"b1", b"b2", b"a3"].map(|[c, d]| one(labels(b"", &[(b"c", &[*c]), (b"d", &[*d])]), &[1.0]));
            let drained = given(&by_c, side(1, vec![bare(&[1.0])]), side(1, ones.to_vec()));
            both.push(("two duplicates of one many-side series", drained));
            both
        }
        Known::NoLimits => {
            let left = side(0, vec![bare(&[]); 512]);
            vec![("`or` of 512 series and one more", given(&query(Operator::Or), left, side(0, vec![tagged(b"a", b"", &[])])))]
        }
        Known::NanBits => {
            let payload = Series { labels: labels(b"", &[]), row: vec![0x7ff8_0000_0000_0001, 0] };
            vec![
                ("0 / 0", given(&query(Operator::Div), side(1, vec![bare(&[0.0])]), side(1, vec![bare(&[0.0])]))),
                ("a payload, + 1", given(&query(Operator::Add), side(2, vec![payload]), side(2, vec![bare(&[1.0, 1.0])]))),
            ]
        }
    }
}

/// Shows each again; false where one is no longer there.
pub fn shown() -> bool {
    let mut all = true;
    for known in Known::ALL {
        for (what, call) in examples(known) {
            let verdict = compare(&call);
            if verdict != Verdict::Known(known) {
                println!("LISTED, BUT NOT SHOWN: {known:?}, {what}: {verdict:?}");
                all = false;
            }
        }
    }
    println!("{} listed differences, each shown by its smallest input", Known::ALL.len());
    all
}

/// Prints each with what the reference and the Rust give.
pub fn print() {
    for known in Known::ALL {
        println!("{known:?}");
        for (what, call) in examples(known) {
            println!("  {what}");
            if call.left_labels.len() < 64 {
                println!("    query  {}", hex(&call.query));
                println!("    left   {} {:016x?}", hex(&call.left_labels), call.left);
                println!("    right  {} {:016x?}", hex(&call.right_labels), call.right);
            }
            println!("    rules  {}", outcome(&reference::call(&call)));
            println!("    Rust   {}", rust_outcome(&call));
        }
    }
}

fn hex(bytes: &[u8]) -> String {
    bytes.iter().map(|b| format!("{b:02x}")).collect()
}

fn outcome(outcome: &reference::Outcome) -> String {
    match outcome {
        Err(r) => format!("refused {} {} {}", r.number, r.fields[0], r.fields[1]),
        Ok(a) => format!("{} series {:016x?}", a.series, a.readings),
    }
}

fn rust_outcome(call: &Call) -> String {
    // The refused operators are taken as `+` and then put back.
    let mut carried = call.clone();
    let op = usize::from(call.query[0]);
    if !Operator::ALL[op].is_carried() {
        carried.query[0] = 0;
    }
    let (mut query, left, right) = reference::taken(&carried).expect("an example that is taken");
    query.op = Operator::ALL[op];
    match rust::run(rust::argument(&query, &left, &right).expect("UTF-8")) {
        Given::Answer { series, .. } if series.len() > 4 => format!("{} series", series.len()),
        Given::Answer { series, timestamps } => {
            let rows: Vec<_> = series.iter().map(|s| &s.row).collect();
            let at = if left.grid == right.grid { String::new() } else { format!(" at {timestamps:?}") };
            format!("{} series {rows:016x?}{at}", series.len())
        }
        Given::Duplicate(message) | Given::OtherError(message) => message,
        Given::Panic => "panics".to_string(),
    }
}
