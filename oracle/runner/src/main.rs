//! Runs the reference against the Rust's `exec_binop` and `remove_group_tags`, and a library against the reference. README.md
//! says how.
use std::process::ExitCode;

use oracle::dealing::{dealt, Run};
#[cfg(feature = "library")]
use oracle::exports;
use oracle::library::{Library, Program};
use oracle::random::Random;
use oracle::tally::Tally;
use oracle::{aggregates, cases, damage, known, overlaps, sample};
use reference::{Aggregate, Call, Grouping, Room, ALLOWANCE, MAX_ALLOWANCE};
#[cfg(feature = "library")]
use reference::{AggregateCall, ExportCall};

struct Options {
    seed: u64,
    /// Random cases an operator, and an aggregate and grouping.
    cases: usize,
    vecop: Option<String>,
    sample: Option<String>,
    show: usize,
    differences: bool,
    part: Part,
}

/// What is run.
#[derive(Clone, Copy, PartialEq, Eq)]
enum Part {
    All,
    Aggregates,
    /// The export, which has nothing but the linked library to compare with the reference.
    Exports,
}

const USAGE: &str = "oracle [--seed N] [--cases N] [--vecop WORDS | --aggregates | --exports] [--show N]\n\
    oracle --sample FOLDER\n\
    oracle --differences\n\
    --seed     of the random cases (1)\n\
    --cases    random cases an operator, and an aggregate and grouping (20000)\n\
    --vecop    compares the vecop that these words run with the reference, and leaves the Rust aside\n\
    --aggregates   runs what there is of aggregates, and nothing else\n\
    --exports  runs the export, for which the library has to be linked, and nothing else\n\
    --show     how many differences are printed in full (5)\n\
    --sample   writes the fixed sample of the Rust's answers into this folder\n\
    --differences   prints the listed differences with their smallest inputs";

fn options() -> Result<Options, String> {
    let mut o = Options { seed: 1, cases: 20_000, vecop: None, sample: None, show: 5, differences: false, part: Part::All };
    let mut words = std::env::args().skip(1);
    while let Some(word) = words.next() {
        match word.as_str() {
            "--differences" => o.differences = true,
            "--aggregates" => o.part = Part::Aggregates,
            "--exports" if cfg!(feature = "library") => o.part = Part::Exports,
            "--exports" => return Err("--exports needs the linked library: build with --features oracle/library".to_string()),
            _ => valued(&mut o, &word, &words.next().ok_or_else(|| USAGE.to_string())?)?,
        }
    }
    Ok(o)
}

/// Takes an option that has a value.
fn valued(o: &mut Options, word: &str, value: &str) -> Result<(), String> {
    let number = || value.parse::<u64>().map_err(|_| format!("{word} {value}: not a number"));
    match word {
        "--seed" => o.seed = number()?,
        "--cases" => o.cases = number()? as usize,
        "--show" => o.show = number()? as usize,
        "--vecop" => o.vecop = Some(value.to_string()),
        "--sample" => o.sample = Some(value.to_string()),
        _ => return Err(USAGE.to_string()),
    }
    Ok(())
}

fn main() -> ExitCode {
    let o = match options() {
        Ok(o) => o,
        Err(message) => {
            eprintln!("{message}");
            return ExitCode::from(2);
        }
    };
    // The Rust's panics are caught and counted; their traces would drown the report.
    std::panic::set_hook(Box::new(|_| {}));
    if let Some(folder) = &o.sample {
        return sample::write(folder);
    }
    if o.differences {
        known::print();
        return ExitCode::SUCCESS;
    }
    let mut good = true;
    match &o.vecop {
        Some(words) => good &= program(&o, Program { words: words.clone() }),
        None => {
            if o.part == Part::All {
                good &= known::shown();
                good &= against_rust(&o);
                #[cfg(feature = "library")]
                {
                    good &= linked(&o);
                }
            }
            if o.part != Part::Exports {
                good &= edited_labels(&o);
                good &= dealt_in_two(&o, "The reference", reference::aggregate);
                #[cfg(feature = "library")]
                {
                    good &= linked_aggregates(&o);
                    good &= dealt_in_two(&o, "The linked library", oracle::library::linked_aggregate);
                }
            }
            #[cfg(feature = "library")]
            if o.part != Part::Aggregates {
                good &= linked_exports(&o);
            }
        }
    }
    if good {
        ExitCode::SUCCESS
    } else {
        ExitCode::FAILURE
    }
}

/// Visits every case that may be put to the Rust.
fn admitted(o: &Options, visit: &mut dyn FnMut(&'static str, Call)) {
    for (k, op) in cases::CARRIED.into_iter().enumerate() {
        let mut r = Random::new(o.seed.wrapping_mul(1_000_003).wrapping_add(k as u64));
        for _ in 0..o.cases {
            visit("random", cases::random(&mut r, op, cases::Extent::Small, true));
        }
        for _ in 0..o.cases.div_ceil(50) {
            visit("random, long rows", cases::random(&mut r, op, cases::Extent::Long, true));
        }
        for _ in 0..o.cases.div_ceil(200) {
            visit("random, many series", cases::random(&mut r, op, cases::Extent::Wide, true));
        }
    }
    cases::all_readings(&mut |c| visit("all pairs of readings", c));
    cases::all_merges(ALLOWANCE, &mut |c| visit("all gap patterns merged", c));
}

/// Visits every case for a library alone: other allowances than the Rust's, damaged inputs, labels outside UTF-8, limits and lent
/// parts.
fn beyond(o: &Options, visit: &mut dyn FnMut(&'static str, Call)) {
    let mut r = Random::new(o.seed.wrapping_mul(1_000_033));
    let n = o.cases;
    for _ in 0..n {
        let op = r.pick(&cases::CARRIED);
        visit("labels outside UTF-8", cases::random(&mut r, op, cases::Extent::Small, false));
    }
    for allowance in 0..=MAX_ALLOWANCE {
        for _ in 0..n.div_ceil(4) {
            visit("any case under every allowance", cases::allowing(&mut r, allowance));
        }
        for _ in 0..n.div_ceil(4) {
            visit("overlaps about the allowance", overlaps::random(&mut r, allowance, false));
        }
        for _ in 0..n.div_ceil(20) {
            visit("overlaps about the allowance, long rows", overlaps::random(&mut r, allowance, true));
        }
    }
    overlaps::borders(&mut |c| visit("overlaps beside every border of 64 places", c));
    damage::allowances(&mut |c| visit("every byte as the allowance", c));
    damage::cuts(&mut r, n.div_ceil(50), &mut |c| visit("parts cut or too long", c));
    for _ in 0..2 * n {
        damage::changed_bytes(&mut r, &mut |c| visit("bytes changed", c));
    }
    for _ in 0..n {
        damage::bad_keys(&mut r, &mut |c| visit("bad keys", c));
    }
    for _ in 0..2 * n {
        damage::grids(&mut r, &mut |c| visit("grids", c));
    }
    for _ in 0..n.div_ceil(4) {
        damage::unequal_points(&mut r, &mut |c| visit("sides of different p", c));
        damage::rooms(&mut r, &mut |c| visit("lent parts of every length", c));
    }
    damage::grid_borders(&mut |c| visit("every border of start and step", c));
    damage::limits(&mut |c| visit("limits", c));
}

/// Visits every case of an aggregate, those with the longest parts last.
#[cfg(feature = "library")]
fn aggregated(o: &Options, visit: &mut dyn FnMut(&'static str, AggregateCall)) {
    use aggregates::Extent;
    let mut r = Random::new(o.seed.wrapping_mul(1_000_039));
    let n = o.cases;
    let mut random = |r: &mut Random, kind, extent, utf8, times: usize| {
        for aggregate in Aggregate::ALL {
            for grouping in Grouping::ALL {
                for _ in 0..times {
                    visit(kind, aggregates::random(r, aggregate, grouping, extent, utf8));
                }
            }
        }
    };
    random(&mut r, "random", Extent::Small, true, n);
    random(&mut r, "labels outside UTF-8", Extent::Small, false, n.div_ceil(10));
    random(&mut r, "random, many series", Extent::Wide, true, n.div_ceil(100));
    random(&mut r, "random, long rows", Extent::Long, true, n.div_ceil(100));
    aggregates::all_labels_called(&mut |c| visit("all labels and groupings", c));
    aggregates::all_readings(&mut |c| visit("all readings by threes", c));
    aggregates::requests(&mut |c| visit("requests with every byte", c));
    for _ in 0..n {
        visit("bytes changed", aggregates::changed_bytes(&mut r));
    }
    aggregates::damaged(&mut r, n.div_ceil(4), &mut |c| visit("damaged vectors", c));
    for _ in 0..n.div_ceil(20) {
        aggregates::rooms(&mut r, &mut |c| visit("lent parts of every length", c));
    }
    aggregates::limits(&mut |c| visit("limits", c));
    damage::limits(&mut |c| {
        for (labels, readings) in [(c.left_labels, c.left), (c.right_labels, c.right)] {
            visit("limits", AggregateCall { request: vec![0, 1, 0], labels, readings, room: c.room });
        }
    });
    for _ in 0..n.div_ceil(2000) {
        for aggregate in Aggregate::ALL {
            for grouping in Grouping::ALL {
                let c = aggregates::random(&mut r, aggregate, grouping, Extent::Full, true);
                visit("random, many series with long rows", c);
            }
        }
    }
}

/// Visits every case of the export, those with the longest texts last.
#[cfg(feature = "library")]
fn exported(o: &Options, visit: &mut dyn FnMut(&'static str, ExportCall)) {
    use exports::Extent;
    let mut r = Random::new(o.seed.wrapping_mul(1_000_117));
    let n = o.cases;
    exports::short_words(visit);
    exports::sequences(&mut |c| visit("UTF-8 sequences at their borders", c));
    for _ in 0..n {
        visit("UTF-8, good and broken, at random", exports::random_utf8(&mut r));
    }
    exports::halves(&mut r, n.div_ceil(50), &mut |c| visit("values about each half at each exponent", c));
    exports::large(&mut r, &mut |c| visit("readings about 2 to the 40th and beyond", c));
    for _ in 0..n {
        visit("random", exports::random(&mut r, Extent::Small));
    }
    for _ in 0..2 * n {
        visit("several faults in one vector", exports::several_faults(&mut r));
    }
    for _ in 0..n {
        visit("bytes changed", exports::changed_bytes(&mut r));
    }
    for _ in 0..n.div_ceil(200) {
        exports::cuts(&mut r, &mut |c| visit("label parts cut", c));
    }
    exports::damaged(&mut r, n.div_ceil(4), &mut |c| visit("damaged vectors", c));
    for _ in 0..n.div_ceil(10) {
        exports::rooms(&mut r, &mut |c| visit("output parts of every length", c));
    }
    exports::longer_words(&mut |c| visit("every byte in longer names, keys and values", c));
    exports::times(&mut |c| visit("times", c));
    for _ in 0..n.div_ceil(100) {
        visit("random, many series", exports::random(&mut r, Extent::Wide));
        visit("random, long rows", exports::random(&mut r, Extent::Long));
    }
    exports::nothing(&mut |c| visit("no series, no points, no reading", c));
    exports::limits(&mut |c| visit("limits", c));
}

/// The label of every total, held against the Rust's.
fn edited_labels(o: &Options) -> bool {
    println!("The reference's edited labels against the Rust's remove_group_tags, seed {}", o.seed);
    let mut tally = Tally::new(o.show);
    aggregates::all_labels(&mut |request, vector| {
        for series in &vector.series {
            tally.count_edited("all labels and groupings", request, &series.labels);
        }
    });
    let mut r = Random::new(o.seed.wrapping_mul(1_000_081));
    for grouping in Grouping::ALL {
        for _ in 0..o.cases {
            let (request, labels) = aggregates::random_edit(&mut r, grouping);
            tally.count_edited("random", &request, &labels);
        }
    }
    tally.report()
}

/// Whole calls and their two piles. Of the output parts some are long, some just long enough for the whole, some one short.
fn dealt_in_two(o: &Options, who: &str, run: Run) -> bool {
    use aggregates::Extent;
    println!("{who} on aggregates dealt into two piles, seed {}", o.seed);
    let mut tally = Tally::new(o.show);
    let mut r = Random::new(o.seed.wrapping_mul(1_000_099));
    let extents = [
        ("random", Extent::Small, o.cases),
        ("random, many series", Extent::Wide, o.cases.div_ceil(40)),
        ("random, long rows", Extent::Long, o.cases.div_ceil(40)),
    ];
    for (kind, extent, times) in extents {
        for _ in 0..times {
            let (aggregate, grouping, utf8) = (r.pick(&Aggregate::ALL), r.pick(&Grouping::ALL), r.one_in(2));
            let mut whole = aggregates::random(&mut r, aggregate, grouping, extent, utf8);
            if let (Ok(answer), true) = (reference::aggregate(&whole), r.one_in(2)) {
                let (labels, readings) = (answer.labels.len(), answer.readings.len());
                let short = r.pick(&[(0, 0), (0, 0), (1, 0), (0, 1)]);
                whole.room = Room { labels: labels.saturating_sub(short.0), readings: readings.saturating_sub(short.1) };
            }
            let deal = dealt(&mut r, whole).expect("a good call");
            tally.count_deal(kind, &deal, run);
        }
    }
    tally.report()
}

fn against_rust(o: &Options) -> bool {
    println!("The reference against the Rust, seed {}, {} random cases an operator", o.seed, o.cases);
    let mut tally = Tally::new(o.show);
    admitted(o, &mut |kind, c| tally.count_rust(kind, &c));
    cases::all_labels(0, 1, &mut |c| tally.count_rust("all labels and modifiers", &c));
    tally.report()
}

/// The exhaustive cases are far too many for a process each: every 97th of the labels is put to the program, and of the gap patterns
/// those under the Rust's allowance.
fn program(o: &Options, mut program: Program) -> bool {
    println!("{} against the reference, seed {}, {} random cases an operator", program.name(), o.seed, o.cases);
    let mut tally = Tally::new(o.show);
    // Its output parts have lengths of their own.
    let own = |c: Call| Call { room: cases::ROOM, ..c };
    admitted(o, &mut |kind, c| tally.count_library(kind, &own(c), &mut program));
    cases::all_labels(0, 97, &mut |c| tally.count_library("labels and modifiers, every 97th", &own(c), &mut program));
    beyond(o, &mut |kind, c| tally.count_library(kind, &own(c), &mut program));
    framing(o, &mut |kind, input| tally.count_input(kind, input, &program));
    tally.report()
}

#[cfg(feature = "library")]
fn linked(o: &Options) -> bool {
    let mut library = oracle::library::Linked::default();
    println!("{} against the reference, seed {}, {} random cases an operator", library.name(), o.seed, o.cases);
    let mut tally = Tally::new(o.show);
    admitted(o, &mut |kind, c| tally.count_library(kind, &c, &mut library));
    cases::all_labels(0, 1, &mut |c| tally.count_library("all labels and modifiers", &c, &mut library));
    for allowance in (0..=MAX_ALLOWANCE).filter(|allowance| *allowance != ALLOWANCE) {
        let kind = "all gap patterns merged, other allowances";
        cases::all_merges(allowance, &mut |c| tally.count_library(kind, &c, &mut library));
    }
    beyond(o, &mut |kind, c| tally.count_library(kind, &c, &mut library));
    tally.report()
}

#[cfg(feature = "library")]
fn linked_aggregates(o: &Options) -> bool {
    let mut library = oracle::library::Linked::default();
    println!("{} against the reference: aggregates, seed {}", library.name(), o.seed);
    let mut tally = Tally::new(o.show);
    aggregated(o, &mut |kind, c| {
        let checked = library.check_aggregate(&c);
        tally.count_aggregate(kind, &c, checked);
    });
    tally.report()
}

#[cfg(feature = "library")]
fn linked_exports(o: &Options) -> bool {
    let mut library = oracle::library::Linked::default();
    println!("{} against the reference: exports, seed {}", library.name(), o.seed);
    let mut tally = Tally::new(o.show);
    exported(o, &mut |kind, c| {
        let checked = library.check_export(&c);
        tally.count_export(kind, &c, checked);
    });
    tally.report()
}

/// Inputs of the program whose framing is damaged, and of the greatest length.
fn framing(o: &Options, visit: &mut dyn FnMut(&'static str, &[u8])) {
    let mut r = Random::new(o.seed.wrapping_mul(1_000_037));
    for _ in 0..o.cases.div_ceil(40) {
        let op = r.pick(&cases::CARRIED);
        let input = reference::frame(&cases::random(&mut r, op, cases::Extent::Tiny, true));
        for _ in 0..8 {
            visit("framing cut", &input[..r.below(input.len())]);
        }
        visit("framing too long", &[input.as_slice(), &[0]].concat());
        let mut changed = input.clone();
        let at = r.below(4);
        changed[at] = r.word() as u8;
        visit("a length changed", &changed);
    }
    // A query of such a length that the input has 65,536 bytes, or one more.
    for length in [65_536, 65_537, 70_000] {
        let mut input = vec![0; length];
        input[..4].copy_from_slice(&(length as u32 - 12).to_le_bytes());
        visit("greatest length", &input);
    }
}
