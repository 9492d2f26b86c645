//! Running: what a query over two taken vectors of equal p gives, as ranked events.
use crate::label::Tag;
use crate::query::{Join, Operator, Query};
use crate::reading::{combine, is_missing, merge, Merged, MISSING};
use crate::vector::{Series, Vector};

/// An answer series, or a merge that failed, where the answer series would stand.
#[derive(Clone, Debug, PartialEq, Eq)]
pub struct Event {
    pub rank: (usize, usize),
    pub what: What,
}

#[derive(Clone, Debug, PartialEq, Eq)]
pub enum What {
    Series(Series),
    /// "fields are the input places of the series kept and the one that failed to merge"
    Duplicate {
        right: bool,
        kept: usize,
        failed: usize,
    },
}

/// A series with its input place and its key under the query's matching.
struct Placed<'a> {
    place: usize,
    key: Vec<Tag>,
    series: &'a Series,
}

/// What an operator outside the set rules gives of a left and a right reading.
pub type Combine = fn(Operator, bool, u64, u64) -> u64;

/// Every event of the call, in no order; `answer` goes by rank and stops at the first duplicate.
pub fn run(query: &Query, left: &Vector, right: &Vector) -> Vec<Event> {
    run_by(combine, query, left, right)
}

/// The same with `combine` for the operators: the Rust has other comparisons.
pub fn run_by(combine: Combine, query: &Query, left: &Vector, right: &Vector) -> Vec<Event> {
    let mut left = placed(query, left);
    let mut right = placed(query, right);
    if query.op.is_logical_op() {
        return set_rules(query.op, &left, &right);
    }
    // "Non-comparison arithmetic first drops series with only N on either side; p = 0 counts as only N."
    if !query.op.is_comparison() {
        left.retain(|s| !only_missing(&s.series.row));
        right.retain(|s| !only_missing(&s.series.row));
    }
    match query.join {
        Join::OneToOne | Join::ManyToMany => one_to_one(combine, query, &left, &right),
        Join::GroupLeft => join(combine, query, &left, &right),
        Join::GroupRight => join(combine, query, &right, &left),
    }
}

fn placed<'a>(query: &Query, vector: &'a Vector) -> Vec<Placed<'a>> {
    vector.series.iter().enumerate().map(|(place, series)| Placed { place, key: series.labels.key(query), series }).collect()
}

fn only_missing(row: &[u64]) -> bool {
    row.iter().all(|r| is_missing(*r))
}

fn same_key<'a, 'b>(side: &'b [Placed<'a>], key: &[Tag]) -> Vec<&'b Placed<'a>> {
    side.iter().filter(|s| s.key == key).collect()
}

/// "One-to-one: per key on both sides, each side becomes one series: the last, with the earlier ones merged into it in order."
fn one_to_one(combine: Combine, query: &Query, left: &[Placed], right: &[Placed]) -> Vec<Event> {
    let mut events = Vec::new();
    for (i, first) in left.iter().enumerate() {
        let first_of_key = left[..i].iter().all(|s| s.key != first.key);
        let (lefts, rights) = (same_key(left, &first.key), same_key(right, &first.key));
        if !first_of_key || rights.is_empty() {
            continue;
        }
        // "first left place of the key, among kept series"
        let rank = (first.place, 0);
        let what = match (merged_into_last(query, &lefts), merged_into_last(query, &rights)) {
            // "left before right"
            (Err((kept, failed)), _) => What::Duplicate { right: false, kept, failed },
            (_, Err((kept, failed))) => What::Duplicate { right: true, kept, failed },
            (Ok(l), Ok(r)) => {
                let labels = lefts[lefts.len() - 1].series.labels.edited_one_to_one(query);
                let row = l.iter().zip(&r).map(|(l, r)| combine(query.op, query.bool_flag, *l, *r)).collect();
                What::Series(Series { labels, row })
            }
        };
        events.push(Event { rank, what });
    }
    events
}

/// 02: "One-to-one and joins pass it down": each merge has the whole allowance, against the row as merged so far.
fn merged_into_last(query: &Query, same: &[&Placed]) -> Result<Vec<u64>, (usize, usize)> {
    let (last, earlier) = same.split_last().expect("a key has a series");
    let mut row = last.series.row.clone();
    for s in earlier {
        if merge(&mut row, &s.series.row, query.allowance) != Merged::Done {
            return Err((last.place, s.place));
        }
    }
    Ok(row)
}

/// "A join (many side left for group_left, right for group_right; the left reading is the left operand in both) pairs each
/// many-side series with every same-key one-side series ...; for each many-side series by itself, from the one side's rows as
/// they were taken, equal edited tags, name aside, merge into the earliest one-side row, whose edited label stays; two many-side
/// series never merge."
fn join(combine: Combine, query: &Query, many: &[Placed], one: &[Placed]) -> Vec<Event> {
    let mut events = Vec::new();
    for m in many {
        let ones = same_key(one, &m.key);
        let edited: Vec<_> = ones.iter().map(|o| m.series.labels.edited_join(query, &o.series.labels)).collect();
        for (i, earliest) in ones.iter().enumerate() {
            if edited[..i].iter().any(|e| e.tags == edited[i].tags) {
                continue;
            }
            let mut row = earliest.series.row.clone();
            let mut failed = None;
            for j in i + 1..ones.len() {
                let same = edited[j].tags == edited[i].tags;
                if same && merge(&mut row, &ones[j].series.row, query.allowance) != Merged::Done {
                    failed = Some(ones[j].place);
                    break;
                }
            }
            // "Joins: many-side place, then one-side place."
            let rank = (m.place, earliest.place);
            let what = match failed {
                // The merged rows are the one side's.
                Some(failed) => What::Duplicate { right: query.join == Join::GroupLeft, kept: earliest.place, failed },
                None => {
                    let pairs = m.series.row.iter().zip(&row);
                    let row = pairs
                        .map(|(m, o)| match query.join {
                            Join::GroupRight => combine(query.op, query.bool_flag, *o, *m),
                            _ => combine(query.op, query.bool_flag, *m, *o),
                        })
                        .collect();
                    What::Series(Series { labels: edited[i].clone(), row })
                }
            };
            events.push(Event { rank, what });
        }
    }
    events
}

/// "Set rules pay no heed to the join or the flags and edit no labels". Left series rank before right ones.
fn set_rules(op: Operator, left: &[Placed], right: &[Placed]) -> Vec<Event> {
    let mut events = Vec::new();
    let mut push = |rank, series: Series| events.push(Event { rank, what: What::Series(series) });
    for l in left {
        if let Some(row) = set_row(op, l, right) {
            push((0, l.place), Series { labels: l.series.labels.clone(), row });
        }
    }
    // "`or` adds unmatched right; `default` with no left returns the right."
    for r in right {
        let added = match op {
            Operator::Or => same_key(left, &r.key).is_empty(),
            Operator::Default => left.is_empty(),
            _ => false,
        };
        if added {
            push((1, r.place), r.series.clone());
        }
    }
    events
}

/// The row of a left series, or none where it goes.
fn set_row(op: Operator, left: &Placed, right: &[Placed]) -> Option<Vec<u64>> {
    use Operator::*;
    let mut matched = same_key(right, &left.key);
    // "`if`, `ifnot`, `default` fall back to a right side of one series without name and tags; no other operator does".
    if matched.is_empty() && matches!(op, If | IfNot | Default) {
        if let [only] = right {
            if only.series.labels.name.is_empty() && only.series.labels.tags.is_empty() {
                matched.push(only);
            }
        }
    }
    // "Unmatched left: dropped by `and`, `if`, else kept."
    if matched.is_empty() {
        return if matches!(op, And | If) { None } else { Some(left.series.row.clone()) };
    }
    let at = |(i, l): (usize, &u64)| {
        let first = matched.iter().map(|r| r.series.row[i]).find(|r| !is_missing(*r));
        match (op, first) {
            // "`and`, `if` keep the left reading if one has a reading; `unless`, `ifnot` if none has"
            (And | If, Some(_)) | (Unless | IfNot, None) => *l,
            (And | If, None) | (Unless | IfNot, Some(_)) => MISSING,
            // "`or`, `default` fill N from the first that has"
            (_, Some(filling)) if is_missing(*l) => filling,
            _ => *l,
        }
    };
    let row: Vec<u64> = left.series.row.iter().enumerate().map(at).collect();
    // "Matched series left with only N go, for the first four."
    if matches!(op, And | If | Unless | IfNot) && only_missing(&row) {
        return None;
    }
    Some(row)
}
