//! The fixed sample of the Rust's answers, for tests that have no Rust at hand. Each case is one where the Rust is the measure
//! and gives what the reference gives, in comparisons at the points whose right reading is present; what is written is the
//! reference's outcome, since missing right readings, order, the bits of a made NaN and the places of a duplicate are 01's and
//! 02's alone. oracle/README.md has the format of both files.
use std::collections::BTreeMap;
use std::fmt::Write;
use std::path::Path;
use std::process::ExitCode;

use reference::{Call, Grid, Outcome};

use crate::cases::{random, Extent, CARRIED};
use crate::compare::{compare, Agreement, Known, Verdict};
use crate::random::Random;

pub const SEED: u64 = 20_240_908;

/// Cases an operator: this many answers, and of the operators that merge this many duplicates.
const ANSWERS: usize = 30;
const DUPLICATES: usize = 6;

pub fn write(folder: &str) -> ExitCode {
    let cases = chosen();
    let folder = Path::new(folder);
    let written = std::fs::create_dir_all(folder)
        .and_then(|()| std::fs::write(folder.join("cases.txt"), text(&cases)))
        .and_then(|()| std::fs::write(folder.join("cases.bin"), binary(&cases)));
    match written {
        Ok(()) => {
            println!("{} cases, seed {SEED}, in {}", cases.len(), folder.display());
            ExitCode::SUCCESS
        }
        Err(e) => {
            eprintln!("{}: {e}", folder.display());
            ExitCode::FAILURE
        }
    }
}

/// The sample's cases.
pub fn chosen() -> Vec<(Call, Outcome)> {
    let mut all = Vec::new();
    for (k, op) in CARRIED.into_iter().enumerate() {
        let mut r = Random::new(SEED + k as u64);
        let mut counts: BTreeMap<bool, usize> = BTreeMap::new();
        let duplicates = if op.is_logical_op() { 0 } else { DUPLICATES };
        while counts.values().sum::<usize>() < ANSWERS + duplicates {
            let call = random(&mut r, op, Extent::Tiny, true);
            let outcome = reference::call(&call);
            let duplicate = match compare(&call) {
                Verdict::Agree(Agreement::Duplicate) => true,
                Verdict::Agree(Agreement::Answer) | Verdict::Known(Known::NanBits | Known::MissingRight) => false,
                _ => continue,
            };
            // Of answers without a present reading, one in eight is kept.
            let telling = outcome.as_ref().map_or(true, |a| a.readings.iter().any(|v| !reference::is_missing(*v)));
            if !telling && !r.one_in(8) {
                continue;
            }
            let count = counts.entry(duplicate).or_default();
            if *count < if duplicate { duplicates } else { ANSWERS } {
                *count += 1;
                all.push((call, outcome));
            }
        }
    }
    all
}

fn hex(bytes: &[u8]) -> String {
    bytes.iter().fold(String::new(), |mut out, b| {
        let _ = write!(out, "{b:02x}");
        out
    })
}

fn words(readings: &[u64]) -> String {
    readings.iter().fold(String::new(), |mut out, r| {
        let _ = write!(out, " {r:016x}");
        out
    })
}

pub fn text(cases: &[(Call, Outcome)]) -> String {
    let mut out = String::new();
    for (k, (c, outcome)) in cases.iter().enumerate() {
        let _ = writeln!(out, "case {k}");
        let _ = writeln!(out, "query {}", hex(&c.query));
        let _ = writeln!(out, "left {}{}", hex(&c.left_labels), words(&c.left));
        let _ = writeln!(out, "right {}{}", hex(&c.right_labels), words(&c.right));
        let _ = match outcome {
            Err(r) => writeln!(out, "refused {} {} {}", r.number, r.fields[0], r.fields[1]),
            Ok(a) => {
                let space = if a.labels.is_empty() { "" } else { " " };
                let _ = writeln!(out, "answer {} {} {} {}", a.series, a.points, a.grid.start, a.grid.step);
                writeln!(out, "labels{space}{}\nreadings{}", hex(&a.labels), words(&a.readings))
            }
        };
    }
    out
}

pub fn binary(cases: &[(Call, Outcome)]) -> Vec<u8> {
    let mut out = Vec::new();
    put_number(&mut out, cases.len() as u64);
    for (c, outcome) in cases {
        put_part(&mut out, &case(c, outcome));
    }
    out
}

fn case(c: &Call, outcome: &Outcome) -> Vec<u8> {
    let numbers = match outcome {
        Err(r) => [r.number, r.fields[0], r.fields[1], 0, 0, 0, 0, 0],
        Ok(a) => {
            let Grid { start, step } = a.grid;
            [0, 0, 0, a.series as u64, a.points as u64, start, u64::from(step), a.labels.len() as u64]
        }
    };
    let (labels, readings) = outcome.as_ref().map_or((&[][..], &[][..]), |a| (&a.labels[..], &a.readings[..]));
    let mut out = Vec::new();
    put_number(&mut out, c.room.labels as u64);
    put_number(&mut out, c.room.readings as u64);
    put_part(&mut out, &bytes(&numbers));
    for part in [&c.query, &c.left_labels, &bytes(&c.left), &c.right_labels, &bytes(&c.right), labels, &bytes(readings)] {
        put_part(&mut out, part);
    }
    out
}

fn bytes(readings: &[u64]) -> Vec<u8> {
    readings.iter().flat_map(|r| r.to_le_bytes()).collect()
}

fn put_number(out: &mut Vec<u8>, n: u64) {
    out.extend_from_slice(&u16::try_from(n).expect("a number of two bytes").to_le_bytes());
}

fn put_part(out: &mut Vec<u8>, part: &[u8]) {
    put_number(out, part.len() as u64);
    out.extend_from_slice(part);
}
