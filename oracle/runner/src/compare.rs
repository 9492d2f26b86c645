//! The reference held against the Rust: labels, readings, timestamps and duplicate errors, series order aside, all NaNs equal.
use std::collections::HashMap;

use reference::{
    answer, combine, is_missing, run, run_by, taken, Call, Event, Join, Operator, Query, Room, Series, Vector, What, ALLOWANCE,
    MISSING,
};

use crate::rust::{self, Given};

#[derive(Clone, Debug, PartialEq, Eq)]
pub enum Verdict {
    /// The Rust is the measure here, and agrees.
    Agree(Agreement),
    /// They differ as a listed difference says.
    Known(Known),
    /// The call cannot be put to the Rust.
    Apart(&'static str),
    Differ(String),
}

#[derive(Clone, Copy, Debug, PartialEq, Eq)]
pub enum Agreement {
    Answer,
    /// Both name the same duplicate: its side and both series.
    Duplicate,
}

/// The differences that are known: what 01 says, and what the Rust does. README.md says it at length, with the smallest input.
#[derive(Clone, Copy, Debug, PartialEq, Eq, Hash, PartialOrd, Ord)]
pub enum Known {
    /// 01: `^` and `atan2` are refused with 1. The Rust runs them.
    RefusedOperator,
    /// 01: sides of different p are refused with 6. The Rust errs, panics, or gives a ragged or an empty answer.
    UnequalPoints,
    /// 02: sides on different grids are refused with 12. The Rust does not look at timestamps, and each answer series has those of
    /// the series that it comes from.
    UnequalGrids,
    /// 02: a merge allows as many overlaps as the query says. The Rust always allows 2.
    OtherAllowance,
    /// 02: a comparison with a missing right reading gives N. The Rust compares with it, as 01 alone does.
    MissingRight,
    /// 01: every many-side series meets its match. The Rust's `group_join` empties the one side on the first of a key, and so
    /// also misses a duplicate that only a later one would show.
    JoinUsesUp,
    /// 01: the first duplicate in answer order is named. The Rust names that of the key which its hash map gives first, and within
    /// one many-side series the first merge that fails as it drains the one side.
    WhichDuplicate,
    /// 01: over 512 series, 32 tags or 65,535 label bytes are refused with 9. The Rust has no limits.
    NoLimits,
    /// 01: a made NaN is 7ff8000000000000. In the Rust it has the sign or payload that the processor gives it.
    NanBits,
}

impl Known {
    pub const ALL: [Known; 9] = [
        Known::RefusedOperator,
        Known::UnequalPoints,
        Known::UnequalGrids,
        Known::OtherAllowance,
        Known::MissingRight,
        Known::JoinUsesUp,
        Known::WhichDuplicate,
        Known::NoLimits,
        Known::NanBits,
    ];
}

/// Room that no answer within the limits outgrows: the Rust allocates its own.
const AMPLE: Room = Room { labels: usize::MAX, readings: usize::MAX };

pub fn compare(call: &Call) -> Verdict {
    if let [op @ (2 | 8), rest @ ..] = call.query.as_slice() {
        return refused_operator(call, *op, rest);
    }
    let Ok((query, left, right)) = taken(call) else {
        return Verdict::Apart("refused in taking");
    };
    if query.allowance != ALLOWANCE {
        return other_allowance(call, &query, &left, &right);
    }
    let Some(argument) = rust::argument(&query, &left, &right) else {
        return Verdict::Apart("not UTF-8");
    };
    let given = rust::run(argument);
    if left.points != right.points {
        return Verdict::Known(Known::UnequalPoints);
    }
    let all = run_by(as_in_the_rust, &query, &left, &right);
    let right_missing = all != run(&query, &left, &right);
    let seen = as_seen(&query, &left, &right, &all);
    let used_up = seen.len() < all.len();
    let outcome = answer(&query, &left, &right, AMPLE);
    let number = outcome.as_ref().map_or_else(|r| r.number, |_| 0);
    let same_grid = left.grid == right.grid;
    let grid = outcome.as_ref().map_or(left.grid, |a| a.grid);
    let times = same_grid.then(|| rust::timestamps(grid, left.points));
    match agrees(&left, &right, &seen, &given, times.as_deref()) {
        Err(difference) => Verdict::Differ(difference),
        Ok(_) if same_grid == (number == 12) => Verdict::Differ(format!("the reference gives {outcome:?}")),
        Ok(_) if !same_grid => Verdict::Known(Known::UnequalGrids),
        Ok(_) if used_up => Verdict::Known(Known::JoinUsesUp),
        Ok(Detail::OtherDuplicate) => Verdict::Known(Known::WhichDuplicate),
        Ok(Detail::Duplicate) => Verdict::Agree(Agreement::Duplicate),
        Ok(_) if number == 9 => Verdict::Known(Known::NoLimits),
        Ok(_) if number != 0 => Verdict::Differ(format!("the Rust answers, the reference gives {outcome:?}")),
        Ok(_) if right_missing => Verdict::Known(Known::MissingRight),
        Ok(Detail::NanBits) => Verdict::Known(Known::NanBits),
        Ok(Detail::Same) => Verdict::Agree(Agreement::Answer),
    }
}

/// What an operator gives in the Rust, and in 01 alone: as in the reference, but a comparison does not stop at a missing right
/// reading. "Comparison gives the left reading if true, else N. With bool: left N gives N, else 1 or 0. Equality with both N is
/// true; `!=` with one side N is true; other comparisons with N are false."
fn as_in_the_rust(op: Operator, bool_flag: bool, left: u64, right: u64) -> u64 {
    if !op.is_comparison() || !is_missing(right) {
        return combine(op, bool_flag, left, right);
    }
    let holds = match op {
        Operator::Eql => is_missing(left),
        Operator::NotEq => !is_missing(left),
        _ => false,
    };
    match bool_flag {
        true if is_missing(left) => MISSING,
        true => f64::from(holds).to_bits(),
        false if holds => left,
        false => MISSING,
    }
}

/// Shows that the Rust runs what 01 refuses: the same call under `+` is good, and under this operator the Rust does not err.
fn refused_operator(call: &Call, op: u8, rest: &[u8]) -> Verdict {
    let mut carried = call.clone();
    carried.query = [&[0], rest].concat();
    let Ok((mut query, left, right)) = taken(&carried) else {
        return Verdict::Apart("refused in taking");
    };
    query.op = reference::Operator::ALL[usize::from(op)];
    match rust::argument(&query, &left, &right).map(rust::run) {
        None => Verdict::Apart("not UTF-8"),
        Some(_) => Verdict::Known(Known::RefusedOperator),
    }
}

/// Holds the Rust against the same call at its own allowance, and shows where the query's gives another outcome.
fn other_allowance(call: &Call, query: &Query, left: &Vector, right: &Vector) -> Verdict {
    let own = Query { allowance: ALLOWANCE, ..query.clone() };
    match compare(&Call { query: own.bytes(), ..call.clone() }) {
        differing @ Verdict::Differ(_) => differing,
        apart @ Verdict::Apart(_) => apart,
        _ if answer(query, left, right, AMPLE) != answer(&own, left, right, AMPLE) => Verdict::Known(Known::OtherAllowance),
        same => same,
    }
}

/// The events that the Rust can come to: in a join, those of the first many-side series of each key (`Known::JoinUsesUp`).
/// Where a key has one many-side series, as 01 admits to the runs, these are all.
fn as_seen(query: &Query, left: &Vector, right: &Vector, all: &[Event]) -> Vec<Event> {
    if query.op.is_logical_op() || matches!(query.join, Join::OneToOne | Join::ManyToMany) {
        return all.to_vec();
    }
    let many = if query.join == Join::GroupLeft { left } else { right };
    let mut first_of_key = HashMap::new();
    for (place, s) in many.series.iter().enumerate() {
        if query.op.is_comparison() || !s.row.iter().all(|r| is_missing(*r)) {
            let key: Vec<(Vec<u8>, Vec<u8>)> = s.labels.key(query).into_iter().map(|t| (t.key, t.value)).collect();
            first_of_key.entry(key).or_insert(place);
        }
    }
    let firsts: Vec<usize> = first_of_key.into_values().collect();
    all.iter().filter(|e| firsts.contains(&e.rank.0)).cloned().collect()
}

enum Detail {
    Same,
    /// Equal but for the patterns of NaNs.
    NanBits,
    Duplicate,
    /// A duplicate that the Rust comes to and that is not the first in answer order.
    OtherDuplicate,
}

/// `times` are those that each series of the answer is to have; on sides of different grids there are none.
fn agrees(left: &Vector, right: &Vector, events: &[Event], given: &Given, times: Option<&[i64]>) -> Result<Detail, String> {
    let mut events = events.to_vec();
    events.sort_by_key(|e| e.rank);
    let endings: Vec<String> = events.iter().filter_map(|e| ending(left, right, &e.what)).collect();
    let met: Vec<String> = events.iter().filter(|e| is_met(&events, e)).filter_map(|e| ending(left, right, &e.what)).collect();
    let mut expected: Vec<Series> = events
        .into_iter()
        .filter_map(|e| match e.what {
            What::Series(s) => Some(s),
            What::Duplicate { .. } => None,
        })
        .collect();
    match given {
        Given::Duplicate(message) if !met.iter().any(|e| named(message, e)) => {
            Err(format!("the Rust says `{message}`, the reference {endings:?}"))
        }
        Given::Duplicate(message) if named(message, &endings[0]) => Ok(Detail::Duplicate),
        Given::Duplicate(_) => Ok(Detail::OtherDuplicate),
        Given::Answer { timestamps, .. } if times.is_some_and(|times| timestamps.iter().any(|given| given != times)) => {
            Err(format!("the Rust's timestamps are {timestamps:?}, the reference's {times:?}"))
        }
        Given::Answer { series, .. } if endings.is_empty() => {
            let mut series = series.clone();
            let exact = sorted(&mut series) == sorted(&mut expected);
            if exact {
                return Ok(Detail::Same);
            }
            for s in series.iter_mut().chain(&mut expected) {
                s.row.iter_mut().filter(|r| is_missing(**r)).for_each(|r| *r = MISSING);
            }
            if sorted(&mut series) == sorted(&mut expected) {
                Ok(Detail::NanBits)
            } else {
                Err(format!("the Rust gives {series:x?}, the reference {expected:x?}"))
            }
        }
        Given::Answer { series, .. } => Err(format!("the Rust gives {series:x?}, the reference {endings:?}")),
        Given::OtherError(message) => Err(format!("the Rust errs, `{message}`, the reference {endings:?}, else {expected:x?}")),
        Given::Panic => Err(format!("the Rust panics, the reference {endings:?}, else {expected:x?}")),
    }
}

/// Whether the Rust comes to this duplicate: it drains the one side in order, so of several of one many-side series it meets that
/// whose failed place is lowest.
fn is_met(events: &[Event], event: &Event) -> bool {
    let failed_at = |e: &Event| match e.what {
        What::Duplicate { failed, .. } => Some(failed),
        What::Series(_) => None,
    };
    let same_series = events.iter().filter(|e| e.rank.0 == event.rank.0);
    failed_at(event).is_some() && same_series.filter_map(failed_at).min() == failed_at(event)
}

fn sorted(series: &mut [Series]) -> &mut [Series] {
    series.sort_by(|a, b| (&a.labels, &a.row).cmp(&(&b.labels, &b.row)));
    series
}

/// The side, and the end of the message that names both series.
fn ending(left: &Vector, right: &Vector, what: &What) -> Option<String> {
    let What::Duplicate { right: is_right, kept, failed } = what else {
        return None;
    };
    let (side, vector) = if *is_right { ("right", right) } else { ("left", left) };
    let shown = |place: &usize| rust::shown(&vector.series[*place].labels);
    Some(format!("{side}|: {} and {}", shown(kept), shown(failed)))
}

fn named(message: &str, ending: &str) -> bool {
    let (side, end) = ending.split_once('|').expect("a side and an end");
    message.starts_with(&format!("duplicate time series on the {side} side of ")) && message.ends_with(end)
}
