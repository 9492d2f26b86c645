//! Counts of cases and outcomes, and the differences found.
use std::collections::BTreeMap;

use reference::{AggregateCall, Call, ExportCall, Labels, Request};

use crate::compare::{compare, Agreement, Verdict};
use crate::dealing::{self, Deal, Run};
use crate::library::{Library, Program};
use crate::rust;

pub struct Tally {
    show: usize,
    kinds: BTreeMap<&'static str, u64>,
    outcomes: BTreeMap<String, u64>,
    queries: BTreeMap<String, u64>,
    differences: u64,
}

impl Tally {
    pub fn new(show: usize) -> Tally {
        Tally { show, kinds: BTreeMap::new(), outcomes: BTreeMap::new(), queries: BTreeMap::new(), differences: 0 }
    }

    pub fn count_rust(&mut self, kind: &'static str, call: &Call) {
        *self.kinds.entry(kind).or_default() += 1;
        let outcome = match compare(call) {
            Verdict::Agree(Agreement::Answer) => "agree: answer".to_string(),
            Verdict::Agree(Agreement::Duplicate) => "agree: duplicate".to_string(),
            Verdict::Known(known) => format!("listed: {known:?}"),
            Verdict::Apart(why) => format!("not compared: {why}"),
            Verdict::Differ(difference) => {
                self.difference(kind, &difference, || given(call));
                "UNLISTED DIFFERENCE".to_string()
            }
        };
        if !outcome.starts_with("not compared") {
            self.count_query(call);
        }
        *self.outcomes.entry(outcome).or_default() += 1;
    }

    pub fn count_library(&mut self, kind: &'static str, call: &Call, library: &mut dyn Library) {
        *self.kinds.entry(kind).or_default() += 1;
        let outcome = match reference::call(call) {
            Ok(_) => "answer".to_string(),
            Err(r) => format!("refused {:2}", r.number),
        };
        *self.outcomes.entry(outcome).or_default() += 1;
        self.count_query(call);
        if let Err(difference) = library.check(call) {
            self.difference(kind, &difference, || given(call));
        }
    }

    /// Counts a call of an aggregate, whose comparison with the reference came to this.
    pub fn count_aggregate(&mut self, kind: &'static str, call: &AggregateCall, checked: Result<(), String>) {
        *self.kinds.entry(kind).or_default() += 1;
        let outcome = match reference::aggregate(call) {
            Ok(_) => "answer".to_string(),
            Err(r) => format!("refused {:2}", r.number),
        };
        *self.outcomes.entry(outcome).or_default() += 1;
        self.count_request(&call.request);
        if let Err(difference) = checked {
            self.difference(kind, &difference, || given_aggregate(call));
        }
    }

    /// Counts a call of the export, whose comparison with the reference came to this.
    pub fn count_export(&mut self, kind: &'static str, call: &ExportCall, checked: Result<(), String>) {
        *self.kinds.entry(kind).or_default() += 1;
        // The text where the part is long enough for it.
        let whole = reference::export(&ExportCall { room: usize::MAX, ..call.clone() });
        let outcome = match &whole {
            Ok(text) if text.len() > call.room => "refused 10".to_string(),
            Ok(text) if text.is_empty() => "a text of no line".to_string(),
            Ok(_) => "a text".to_string(),
            Err(r) => format!("refused {:2}", r.number),
        };
        if let Ok(text) = &whole {
            let lent = match call.room as isize - text.len() as isize {
                0 => "as long as the text",
                -1 => "one byte short",
                1 => "one byte more",
                ..-1 => "shorter",
                _ => "longer",
            };
            *self.queries.entry(format!("output part: {lent}")).or_default() += 1;
        }
        if outcome == "a text" {
            let lines = whole.iter().flatten().filter(|byte| **byte == b'\n').count();
            *self.queries.entry("lines written".to_string()).or_default() += lines as u64;
        }
        *self.outcomes.entry(outcome).or_default() += 1;
        if let Err(difference) = checked {
            self.difference(kind, &difference, || given_export(call));
        }
    }

    /// Holds a total's label against that of the Rust.
    pub fn count_edited(&mut self, kind: &'static str, request: &Request, labels: &Labels) {
        let (ours, theirs) = (labels.edited_total(request), rust::edited_total(labels, request));
        *self.kinds.entry(kind).or_default() += 1;
        let outcome = match &theirs {
            None => "not compared: not UTF-8",
            Some(theirs) if *theirs == ours => "agree: label",
            Some(_) => "UNLISTED DIFFERENCE",
        };
        *self.outcomes.entry(outcome.to_string()).or_default() += 1;
        self.count_request(&request.bytes());
        if outcome == "UNLISTED DIFFERENCE" {
            let difference = format!("the Rust gives {theirs:?}, the reference {ours:?}");
            self.difference(kind, &difference, || format!("  request {request:?}\n  labels {labels:?}"));
        }
    }

    /// Runs a dealt call and both its piles.
    pub fn count_deal(&mut self, kind: &'static str, deal: &Deal, run: Run) {
        *self.kinds.entry(kind).or_default() += 1;
        let outcome = match dealing::check(deal, run) {
            Ok(true) => "the whole answers, and so do the piles",
            Ok(false) => "the whole is refused",
            Err(difference) => {
                self.difference(kind, &difference, || format!("{}\n  piles {:?}", given_aggregate(&deal.whole), deal.in_second));
                "UNLISTED DIFFERENCE"
            }
        };
        *self.outcomes.entry(outcome.to_string()).or_default() += 1;
        self.count_request(&deal.whole.request);
    }

    pub fn count_input(&mut self, kind: &'static str, input: &[u8], program: &Program) {
        *self.kinds.entry(kind).or_default() += 1;
        let printed = reference::vecop(input);
        let first = printed.split(|b| *b == b' ' || *b == b'\n').next().unwrap_or_default();
        *self.outcomes.entry(format!("framing: {}", String::from_utf8_lossy(first))).or_default() += 1;
        if let Err(difference) = program.check_input(input) {
            self.differences += 1;
            if self.differences <= self.show as u64 {
                println!("DIFFERENCE ({kind}): {difference}\n  input {input:02x?}");
            }
        }
    }

    /// Operator, matching, join, flag and allowance, where the query has them.
    fn count_query(&mut self, call: &Call) {
        let Ok((query, ..)) = reference::taken(call) else {
            return;
        };
        for part in [
            format!("operator {}", query.op.spelling()),
            format!("matching {:?}", query.matching),
            format!("join {:?}", query.join),
            format!("flag {}", u8::from(query.keep_names) + 2 * u8::from(query.bool_flag)),
            format!("allowance {}", query.allowance),
        ] {
            *self.queries.entry(part).or_default() += 1;
        }
    }

    /// Aggregate, grouping and length of the list, where the request has them.
    fn count_request(&mut self, request: &[u8]) {
        let Ok(request) = reference::take_request(request) else {
            return;
        };
        let listed = match request.list.len() {
            0 => "no label",
            1..=3 => "1 to 3 labels",
            4..=31 => "4 to 31 labels",
            _ => "32 labels",
        };
        for part in [format!("aggregate {:?}", request.aggregate), format!("{:?} {listed}", request.grouping)] {
            *self.queries.entry(part).or_default() += 1;
        }
    }

    fn difference(&mut self, kind: &str, difference: &str, given: impl FnOnce() -> String) {
        self.differences += 1;
        if self.differences <= self.show as u64 {
            println!("DIFFERENCE ({kind}): {difference}\n{}", given());
        }
    }

    /// Prints the counts; true where nothing unlisted differs.
    pub fn report(&self) -> bool {
        for (title, counts) in [
            ("kind", self.kinds.iter().map(|(k, n)| (k.to_string(), *n)).collect::<Vec<_>>()),
            ("outcome", pairs(&self.outcomes)),
            ("taken", pairs(&self.queries)),
        ] {
            println!("  by {title}");
            for (name, n) in counts {
                println!("    {n:>9}  {name}");
            }
        }
        println!("  {} cases, {} unlisted differences", self.kinds.values().sum::<u64>(), self.differences);
        self.differences == 0
    }
}

fn pairs(counts: &BTreeMap<String, u64>) -> Vec<(String, u64)> {
    counts.iter().map(|(k, n)| (k.clone(), *n)).collect()
}

fn given(call: &Call) -> String {
    [
        format!("  query {:02x?}", call.query),
        format!("  left  {:02x?} {:016x?}", call.left_labels, call.left),
        format!("  right {:02x?} {:016x?}", call.right_labels, call.right),
        format!("  room  {:?}", call.room),
    ]
    .join("\n")
}

fn given_aggregate(call: &AggregateCall) -> String {
    [
        format!("  request {:02x?}", call.request),
        format!("  vector  {:02x?} {:016x?}", call.labels, call.readings),
        format!("  room    {:?}", call.room),
    ]
    .join("\n")
}

fn given_export(call: &ExportCall) -> String {
    format!("  vector  {:02x?} {:016x?}\n  room    {}", call.labels, call.readings, call.room)
}
