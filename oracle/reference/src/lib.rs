//! A reading of document 01 ("01"), and of the change requests ("02") as far as they are taken up, in plain Rust, made from their
//! sentences alone, to hold other programs against. Each rule stands beside the sentence that it reads (in quotes; of 01 where no
//! other is named). It is written to be read, not to be fast.

mod aggregate;
mod export;
mod label;
mod query;
mod reading;
mod rules;
mod vecop;
mod vector;

pub use aggregate::{aggregate, take_request, totals, Aggregate, AggregateCall, Grouping, Request};
pub use export::{export, written_value, ExportCall, Exported};
pub use label::{Labels, Tag, NAME};
pub use query::{take_query, Join, Matching, Operator, Query};
pub use reading::{combine, is_missing, merge, Merged, MISSING};
pub use rules::{run, run_by, Event, What};
pub use vecop::{frame, vecop};
pub use vector::{take_vector, Grid, Series, Vector, SIZES};

/// "A refusal has its number and two fields, 0 if not named."
#[derive(Clone, Copy, Debug, PartialEq, Eq)]
pub struct Refusal {
    pub number: u64,
    pub fields: [u64; 2],
}

impl Refusal {
    pub fn new(number: u64, first: usize, second: usize) -> Refusal {
        Refusal { number, fields: [first as u64, second as u64] }
    }
}

#[derive(Clone, Debug, PartialEq, Eq)]
pub struct Answer {
    pub series: usize,
    pub points: usize,
    pub grid: Grid,
    pub labels: Vec<u8>,
    pub readings: Vec<u64>,
}

pub type Outcome = Result<Answer, Refusal>;

/// "513, 33, 1,025 give 3": the limits on series, tags, points, and on the label bytes that two bytes can state.
pub const MAX_SERIES: usize = 512;
pub const MAX_TAGS: usize = 32;
pub const MAX_POINTS: usize = 1024;
pub const MAX_LABEL_BYTES: usize = 65_535;

/// 02: "a start in milliseconds (8 bytes, 0 to 2 to the 52nd) and a step (4 bytes, 1 to 86,400,000)"
pub const MAX_START: u64 = 1 << 52;
pub const MAX_STEP: u32 = 86_400_000;

/// 02: "the number of overlapping places a merge allows, 0 to 8; 01's examples have 2."
pub const MAX_ALLOWANCE: usize = 8;
pub const ALLOWANCE: usize = 2;

/// The lengths of the two lent output parts.
#[derive(Clone, Copy, Debug, PartialEq, Eq)]
pub struct Room {
    pub labels: usize,
    pub readings: usize,
}

/// One call. A label part begins with the sizes; readings are borrowed apart, as 64-bit patterns.
#[derive(Clone, Debug, PartialEq, Eq)]
pub struct Call {
    pub query: Vec<u8>,
    pub left_labels: Vec<u8>,
    pub left: Vec<u64>,
    pub right_labels: Vec<u8>,
    pub right: Vec<u64>,
    pub room: Room,
}

/// What a call gives: the query is taken, then left, then right, then the query runs.
pub fn call(c: &Call) -> Outcome {
    let (query, left, right) = taken(c)?;
    answer(&query, &left, &right, c.room)
}

/// "Taking a query", then "taking a vector, left before right".
pub fn taken(c: &Call) -> Result<(Query, Vector, Vector), Refusal> {
    let query = take_query(&c.query)?;
    let left = take_vector(0, &c.left_labels, &c.left)?;
    let right = take_vector(1, &c.right_labels, &c.right)?;
    Ok((query, left, right))
}

/// "Running: 6, the sides' p differ, empty sides included; 7 left or 8 right duplicate, the first in answer order, left before
/// right; ... Then 9 ...; then 10". 02: "12, the sides' grids differ, empty sides included, after number 6." "The answer carries
/// the grid of its sides".
pub fn answer(query: &Query, left: &Vector, right: &Vector, room: Room) -> Outcome {
    if left.points != right.points {
        return Err(Refusal::new(6, 0, 0));
    }
    if left.grid != right.grid {
        return Err(Refusal::new(12, 0, 0));
    }
    let mut events = run(query, left, right);
    events.sort_by_key(|e| e.rank);
    let mut series = Vec::new();
    for event in events {
        match event.what {
            What::Duplicate { right, kept, failed } => {
                return Err(Refusal::new(if right { 8 } else { 7 }, kept, failed));
            }
            What::Series(s) => series.push(s),
        }
    }
    written(&Vector { points: left.points, grid: left.grid, series }, room)
}

/// "Then 9, the answer has over 512 series, 32 tags or 65,535 label bytes; then 10, it is longer than a lent output part."
fn written(answer: &Vector, room: Room) -> Outcome {
    let Vector { points, grid, series } = answer;
    let labels: Vec<u8> = series.iter().flat_map(|s| s.labels.record()).collect();
    let readings: Vec<u64> = series.iter().flat_map(|s| s.row.iter().copied()).collect();
    if series.len() > MAX_SERIES || series.iter().any(|s| s.labels.tags.len() > MAX_TAGS) || labels.len() > MAX_LABEL_BYTES {
        return Err(Refusal::new(9, 0, 0));
    }
    if labels.len() > room.labels || readings.len() > room.readings {
        return Err(Refusal::new(10, 0, 0));
    }
    Ok(Answer { series: series.len(), points: *points, grid: *grid, labels, readings })
}
