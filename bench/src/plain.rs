//! What a Rust program would have that takes rows of `f64` and has no bytes to read. Aggregates of one vector: the labels in a
//! hash map, and a row of running totals for each group. The text of one vector: a `write!` for each line.
use std::collections::HashMap;
use std::io::Write;

use reference::{Aggregate, AggregateCall, ExportCall, Grid, Grouping, Request, Series};

/// A name and tags.
#[derive(Clone, PartialEq, Eq, Hash)]
pub struct Labels {
    name: String,
    tags: Vec<(String, String)>,
}

pub struct Row {
    labels: Labels,
    values: Vec<f64>,
}

/// What is aggregated, and by which labels.
pub struct By {
    aggregate: Aggregate,
    labels: Vec<String>,
}

#[derive(Clone, Copy)]
struct Running {
    sum: f64,
    lowest: f64,
    highest: f64,
    count: u32,
}

impl Running {
    /// The sum begins at -0, to which every reading adds as itself.
    const NONE: Running = Running { sum: -0.0, lowest: f64::INFINITY, highest: f64::NEG_INFINITY, count: 0 };

    fn add(&mut self, value: f64) {
        self.sum += value;
        if value < self.lowest {
            self.lowest = value;
        }
        if value > self.highest {
            self.highest = value;
        }
        self.count += 1;
    }

    fn gives(self, aggregate: Aggregate) -> f64 {
        if self.count == 0 {
            return f64::NAN;
        }
        match aggregate {
            Aggregate::Sum => self.sum,
            Aggregate::Min => self.lowest,
            Aggregate::Max => self.highest,
            Aggregate::Count => f64::from(self.count),
            Aggregate::Avg => self.sum / f64::from(self.count),
        }
    }
}

/// The groups in order of their first rows.
pub fn aggregated(by: &By, points: usize, rows: &[Row]) -> Vec<Row> {
    let mut places = HashMap::new();
    let mut groups: Vec<(Labels, Vec<Running>)> = Vec::new();
    for row in rows {
        let place = *places.entry(by.labels_of(&row.labels)).or_insert_with_key(|labels| {
            groups.push((labels.clone(), vec![Running::NONE; points]));
            groups.len() - 1
        });
        for (total, value) in groups[place].1.iter_mut().zip(&row.values) {
            if !value.is_nan() {
                total.add(*value);
            }
        }
    }
    let row = |totals: Vec<Running>| totals.into_iter().map(|total| total.gives(by.aggregate)).collect();
    groups.into_iter().map(|(labels, totals)| Row { labels, values: row(totals) }).collect()
}

impl By {
    /// Keeps the listed tags, and the name where `__name__` is listed.
    fn labels_of(&self, labels: &Labels) -> Labels {
        let listed = |key: &str| self.labels.iter().any(|label| label == key);
        let name = if listed("__name__") { labels.name.clone() } else { String::new() };
        Labels { name, tags: labels.tags.iter().filter(|(key, _)| listed(key)).cloned().collect() }
    }
}

/// The text of the rows, in place of what the vector held. The labels of a row are written once and copied into its lines. `{:.3}`
/// sends an exact half to the even digit, so this is right for rows without one.
pub fn exported(grid: Grid, rows: &[Row], out: &mut Vec<u8>) {
    out.clear();
    for row in rows {
        let labels = row.labels.text();
        for (i, value) in row.values.iter().enumerate() {
            if !value.is_nan() {
                let time = grid.start + i as u64 * u64::from(grid.step);
                writeln!(out, "{labels} {value:.3} {time}").expect("a vector grows");
            }
        }
    }
}

impl Labels {
    fn text(&self) -> String {
        let escaped = |value: &str| value.replace('\\', "\\\\").replace('"', "\\\"").replace('\n', "\\n");
        let tags: Vec<String> = self.tags.iter().map(|(key, value)| format!("{key}=\"{}\"", escaped(value))).collect();
        if tags.is_empty() {
            self.name.clone()
        } else {
            format!("{}{{{}}}", self.name, tags.join(","))
        }
    }
}

/// A call's request, points and rows, as this program has them.
pub fn made(call: &AggregateCall) -> (By, usize, Vec<Row>) {
    let Request { aggregate, grouping, list } = reference::take_request(&call.request).expect("a good request");
    assert_eq!(grouping, Grouping::By);
    let vector = reference::take_vector(0, &call.labels, &call.readings).expect("a good vector");
    let rows = vector.series.iter().map(row).collect();
    (By { aggregate, labels: list.iter().map(|label| text(label)).collect() }, vector.points, rows)
}

/// The grid and the rows of a call of the export.
pub fn made_export(call: &ExportCall) -> (Grid, Vec<Row>) {
    let vector = reference::take_vector(0, &call.labels, &call.readings).expect("a good vector");
    (vector.grid, vector.series.iter().map(row).collect())
}

fn row(s: &Series) -> Row {
    let tags = s.labels.tags.iter().map(|t| (text(&t.key), text(&t.value))).collect();
    let values = s.row.iter().map(|reading| f64::from_bits(*reading)).collect();
    Row { labels: Labels { name: text(&s.labels.name), tags }, values }
}

fn text(bytes: &[u8]) -> String {
    String::from_utf8(bytes.to_vec()).expect("UTF-8")
}

/// Whether the program's answer is the reference's: labels, order and the bits of every reading.
pub fn is_right(call: &AggregateCall) -> bool {
    let (by, points, rows) = made(call);
    let given = aggregated(&by, points, &rows);
    let bytes = |text: &String| text.clone().into_bytes();
    let labels = |l: &Labels| reference::Labels {
        name: bytes(&l.name),
        tags: l.tags.iter().map(|(key, value)| reference::Tag { key: bytes(key), value: bytes(value) }).collect(),
    };
    let expected = reference::aggregate(call).expect("an answer");
    let records: Vec<u8> = given.iter().flat_map(|row| labels(&row.labels).record()).collect();
    let readings: Vec<u64> = given.iter().flat_map(|row| row.values.iter().map(|value| value.to_bits())).collect();
    records == expected.labels && readings == expected.readings
}

/// Whether the program's text is the reference's.
pub fn is_right_text(call: &ExportCall) -> bool {
    let (grid, rows) = made_export(call);
    let mut out = Vec::new();
    exported(grid, &rows, &mut out);
    out == reference::export(call).expect("a text")
}
