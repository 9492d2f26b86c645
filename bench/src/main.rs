//! Times `exec_binop` of the Rust and of the library on the same inputs, the library's aggregates and a plain loop, and its export
//! and plain `write!`s, in turn, beside a plain copy of as many bytes. README.md says how to build it and what is counted.
mod plain;
mod times;
mod workloads;

use oracle::compare::{compare, Known, Verdict};
use times::{measure, Measured, Times};
use workloads::{workloads, Work, Workload};

/// What is measured must be right: the Rust against the reference, and the library against it too.
fn checked(w: &Workload) -> &'static str {
    #[cfg(feature = "library")]
    {
        use oracle::library::{Library, Linked};
        let checked = match &w.work {
            Work::Query(call) => Linked::default().check(call),
            Work::Aggregate(call) => Linked::default().check_aggregate(call),
            Work::Export(call) => Linked::default().check_export(call),
        };
        if let Err(difference) = checked {
            panic!("{}: {difference}", w.name);
        }
    }
    let verdict = match &w.work {
        Work::Query(call) => compare(call),
        Work::Aggregate(call) => {
            assert!(plain::is_right(call), "{}: the plain loop is wrong", w.name);
            return "  (the Rust is a plain loop)";
        }
        Work::Export(call) => {
            assert!(plain::is_right_text(call), "{}: the plain text is wrong", w.name);
            return "  (the Rust is a plain write!)";
        }
    };
    match verdict {
        Verdict::Agree(_) | Verdict::Known(Known::NanBits) => "",
        Verdict::Known(Known::MissingRight) => "  (the Rust compares with a missing right reading too)",
        Verdict::Known(Known::JoinUsesUp) => "  (the Rust uses up its one side and answers fewer series)",
        other => panic!("{}: {other:?}", w.name),
    }
}

/// The Rust, the library, their ratio, the copy, and how many copies the library takes.
fn columns(measured: &Measured, of: impl Fn(&Times) -> f64) -> String {
    let (rust, copy) = (of(&measured.rust), of(&measured.copy));
    match measured.library.as_ref().map(of) {
        Some(library) => format!("{rust:>9.1} {library:>9.1} {:>6.3} {copy:>7.1} {:>6.2}", library / rust, library / copy),
        None => format!("{rust:>9.1} {:>9} {:>6} {copy:>7.1} {:>6}", "-", "-", "-"),
    }
}

/// Of an export, how long its text is, and how much of it each writes a second, by medians. A byte a microsecond is a megabyte a
/// second.
fn text_a_second(work: &Work, measured: &Measured) -> String {
    let Work::Export(call) = work else {
        return String::new();
    };
    let bytes = call.room as f64;
    let library = measured.library.as_ref().map_or("-".to_string(), |times| format!("{:.0}", bytes / times.median));
    let rust = bytes / measured.rust.median;
    format!("  {:.2} MB of text, MB a second: Rust {rust:.0}, library {library}", bytes / 1e6)
}

fn main() {
    let turns = std::env::args().nth(1).map_or(101, |n| n.parse().expect("a number of turns"));
    let part = std::env::args().nth(2).unwrap_or_default();
    println!("{turns} turns, in microseconds: medians, then the fastest turns. ratio: library to Rust; copies: library to copy");
    let heads = format!("{:>9} {:>9} {:>6} {:>7} {:>6}", "Rust", "library", "ratio", "copy", "copies");
    println!("{heads}  {heads}  workload");
    for w in workloads().into_iter().filter(|w| w.name.contains(&part)) {
        let note = checked(&w);
        let measured = measure(&w.work, turns);
        let (medians, fastest) = (columns(&measured, |t| t.median), columns(&measured, |t| t.fastest));
        println!("{medians}  {fastest}  {}{note}{}", w.name, text_a_second(&w.work, &measured));
    }
}
