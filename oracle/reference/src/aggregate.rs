//! Aggregates over one vector. The sentences in quotes are those of 02's card "Totals by press", where no other is named.
use crate::query::{put_list, take_list, Operator};
use crate::reading::{combine, is_missing, MISSING};
use crate::vector::{take_vector, Series, Vector};
use crate::{written, Outcome, Refusal, Room};

/// "sum, min, max, count and avg over one vector"; their bytes are "0 to 4 in the order named".
#[derive(Clone, Copy, Debug, PartialEq, Eq)]
#[repr(u8)]
pub enum Aggregate {
    Sum,
    Min,
    Max,
    Count,
    Avg,
}

impl Aggregate {
    pub const ALL: [Aggregate; 5] = [Aggregate::Sum, Aggregate::Min, Aggregate::Max, Aggregate::Count, Aggregate::Avg];
}

/// "a byte 0 for `by` or 1 for `without`".
#[derive(Clone, Copy, Debug, PartialEq, Eq)]
#[repr(u8)]
pub enum Grouping {
    By,
    Without,
}

impl Grouping {
    pub const ALL: [Grouping; 2] = [Grouping::By, Grouping::Without];
}

/// "The request is an aggregate byte, a byte 0 for `by` or 1 for `without`, and one list."
#[derive(Clone, Debug, PartialEq, Eq)]
pub struct Request {
    pub aggregate: Aggregate,
    pub grouping: Grouping,
    pub list: Vec<Vec<u8>>,
}

/// "14, aggregate outside 0 to 4 in the order named, tested first; every other fault of the request is number 2." An empty
/// request has no aggregate byte to refuse: it is 2.
pub fn take_request(bytes: &[u8]) -> Result<Request, Refusal> {
    if bytes.first().is_some_and(|byte| Aggregate::ALL.get(usize::from(*byte)).is_none()) {
        return Err(Refusal::new(14, 0, 0));
    }
    well_formed(bytes).ok_or(Refusal::new(2, 0, 0))
}

fn well_formed(bytes: &[u8]) -> Option<Request> {
    let (&[aggregate, grouping], mut rest) = bytes.split_first_chunk::<2>()?;
    let aggregate = *Aggregate::ALL.get(usize::from(aggregate))?;
    let grouping = *Grouping::ALL.get(usize::from(grouping))?;
    let list = take_list(&mut rest)?;
    rest.is_empty().then_some(Request { aggregate, grouping, list })
}

impl Request {
    /// The bytes that `take_request` takes back.
    pub fn bytes(&self) -> Vec<u8> {
        let mut out = vec![self.aggregate as u8, self.grouping as u8];
        put_list(&mut out, &self.list);
        out
    }
}

/// One call of an aggregate: the request, the vector's label part and readings, and the lengths of the output parts.
#[derive(Clone, Debug, PartialEq, Eq)]
pub struct AggregateCall {
    pub request: Vec<u8>,
    pub labels: Vec<u8>,
    pub readings: Vec<u64>,
    pub room: Room,
}

/// What such a call gives. The request is "tested first". "Wherever one vector is taken, its faults are named with side 0."
/// Then the totals are written, on the vector's grid.
pub fn aggregate(c: &AggregateCall) -> Outcome {
    let request = take_request(&c.request)?;
    let vector = take_vector(0, &c.labels, &c.readings)?;
    written(&Vector { series: totals(&request, &vector), ..vector }, c.room)
}

/// "Series whose edited labels are equal, name included, form one total, in order of first place." None is said to be dropped: a
/// series with only missing readings is in its total, and a total of such series stays.
pub fn totals(request: &Request, vector: &Vector) -> Vec<Series> {
    let edited: Vec<_> = vector.series.iter().map(|s| s.labels.edited_total(request)).collect();
    let mut all = Vec::new();
    for (first, labels) in edited.iter().enumerate() {
        if edited[..first].contains(labels) {
            continue;
        }
        let rows: Vec<&[u64]> =
            vector.series.iter().zip(&edited).filter(|(_, e)| *e == labels).map(|(s, _)| &s.row[..]).collect();
        let row = (0..vector.points).map(|at| at_point(request.aggregate, rows.iter().map(|row| row[at]))).collect();
        all.push(Series { labels: labels.clone(), row });
    }
    all
}

/// "The running total at a point keeps sum, lowest, highest and count together." There is one from the first present reading on.
#[derive(Clone, Copy)]
struct Running {
    sum: u64,
    lowest: u64,
    highest: u64,
    count: u32,
}

impl Running {
    /// "The sum starts at the first present reading".
    fn from_first(reading: u64) -> Running {
        Running { sum: reading, lowest: reading, highest: reading, count: 1 }
    }

    /// "and adds in input order, rounded at each addition"; a sum that has become missing stays so, since 01 has "An N from
    /// arithmetic ... is hexadecimal 7ff8000000000000". "Min and max change only on a strictly smaller or larger reading."
    fn and(self, reading: u64) -> Running {
        let value = f64::from_bits(reading);
        Running {
            sum: combine(Operator::Add, false, self.sum, reading),
            lowest: if value < f64::from_bits(self.lowest) { reading } else { self.lowest },
            highest: if value > f64::from_bits(self.highest) { reading } else { self.highest },
            count: self.count + 1,
        }
    }

    /// "avg is the final sum divided once by the count."
    fn gives(self, aggregate: Aggregate) -> u64 {
        let count = f64::from(self.count).to_bits();
        match aggregate {
            Aggregate::Sum => self.sum,
            Aggregate::Min => self.lowest,
            Aggregate::Max => self.highest,
            Aggregate::Count => count,
            Aggregate::Avg => combine(Operator::Div, false, self.sum, count),
        }
    }
}

/// "Missing readings are skipped; a point with none is missing": for count too.
fn at_point(aggregate: Aggregate, readings: impl Iterator<Item = u64>) -> u64 {
    let mut running: Option<Running> = None;
    for reading in readings.filter(|reading| !is_missing(*reading)) {
        running = Some(match running {
            None => Running::from_first(reading),
            Some(before) => before.and(reading),
        });
    }
    running.map_or(MISSING, |total| total.gives(aggregate))
}
