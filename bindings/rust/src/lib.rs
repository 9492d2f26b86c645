//! Labelled vector operators and aggregates over series with gaps. Every call of [`exec_binop`], over two vectors,
//! and of [`exec_aggregate`], over one, ends, allocates nothing, and gives either a complete valid vector or one
//! refusal; every call of [`export_text`], over one, either the whole text of it for a screen or one refusal.
//! docs/SCOPE.md of the project says what a query, a request, a label part and a refusal are.
//!
//! [`Vector`] writes a side of a call, and [`Answer::read`] gives an answer's series:
//!
//! ```
//! use nosingcatnip::{exec_binop, Vector};
//!
//! let mut fed = Vector::new(3, 0, 3_600_000);
//! fed.push("fed", &[("press", "A")], &[10.0, f64::NAN, 6.0])?;
//! let mut waste = Vector::new(3, 0, 3_600_000);
//! waste.push("waste", &[("press", "A")], &[2.0, 1.0, 3.0])?;
//! let (mut labels, mut readings) = ([0; 64], [0; 8]);
//! // the operator `/`, no modifiers, two empty lists, the allowance
//! let query = [4, 0, 0, 0, 0, 0, 2];
//! let answer = exec_binop(&query, fed.side(), waste.side(), &mut labels, &mut readings)?;
//! assert_eq!(answer.series, 1);
//! for series in answer.read(&labels, &readings) {
//!     assert_eq!(series.name, b"");
//!     assert_eq!(series.tags, [(&b"press"[..], &b"A"[..])]);
//!     assert_eq!((series.row[0], series.row[2]), (5.0, 2.0));
//!     assert!(series.row[1].is_nan());
//! }
//! # Ok::<(), Box<dyn std::error::Error>>(())
//! ```
mod vector;

use std::error::Error;
use std::fmt;

pub use vector::{EncodeError, Vector};

/// A refusal: its number, 1 to 16, and its two fields. The one vector of an aggregate or an export is named as the left
/// side.
///
/// ```
/// let refusal = nosingcatnip::Refusal { number: 7, fields: [2, 0] };
/// assert_eq!(refusal.to_string(), "refused 7 2 0: of one key on the left, series 0 cannot be merged into series 2");
/// ```
#[derive(Clone, Copy, Debug, PartialEq, Eq)]
pub struct Refusal {
    pub number: u64,
    pub fields: [u64; 2],
}

impl fmt::Display for Refusal {
    /// The number, the fields, and the number's condition in words. Places count from 0.
    fn fmt(&self, f: &mut fmt::Formatter) -> fmt::Result {
        let Refusal { number, fields: [first, second] } = *self;
        let side = if first == 0 { "left" } else { "right" };
        write!(f, "refused {number} {first} {second}: ")?;
        match number {
            1 => write!(f, "the operator is above 18, or 2 (atan2), or 8 (^)"),
            2 => write!(f, "the query or request is malformed"),
            3 => write!(f, "sizes, label length or record {second} out of bounds on the {side}"),
            4 => write!(f, "an empty key, keys out of order or a key __name__ in record {second} on the {side}"),
            5 => write!(f, "not as many readings as series times points on the {side}"),
            6 => write!(f, "the two sides have different numbers of points"),
            7 => write!(f, "of one key on the left, series {second} cannot be merged into series {first}"),
            8 => write!(f, "of one key on the right, series {second} cannot be merged into series {first}"),
            9 => write!(f, "the answer has over 512 series, 32 tags a series or 65,535 label bytes"),
            10 => write!(f, "the answer or text is longer than a lent output part"),
            11 => write!(f, "start or step out of range on the {side}"),
            12 => write!(f, "the two sides have different starts or steps"),
            13 => write!(f, "the allowance is above 8"),
            14 => write!(f, "the aggregate is above 4"),
            15 => write!(f, "series {second} has a name, a key or a value that the text cannot have"),
            16 => write!(f, "series {second} has a reading of size 2^40 or more"),
            _ => write!(f, "no refusal has this number"),
        }
    }
}

impl Error for Refusal {}

/// The sizes of an answer. Its label records are the first `label_bytes` of the lent label part, its rows the first
/// `series * points` of the lent readings. Reading i of a row is of the time `start + i * step`, in milliseconds: the
/// grid of all vectors of the call.
#[derive(Clone, Copy, Debug, PartialEq, Eq)]
pub struct Answer {
    pub series: usize,
    pub points: usize,
    pub start: u64,
    pub step: u32,
    pub label_bytes: usize,
}

impl Answer {
    /// The answer's series, in its order, from the two parts that were lent to the call.
    ///
    /// # Panics
    ///
    /// May panic where the parts do not begin with what the call wrote.
    pub fn read<'a>(self, labels: &'a [u8], readings: &'a [u64]) -> impl Iterator<Item = Series<'a>> {
        let mut labels = &labels[..self.label_bytes];
        (0..self.series).map(move |place| {
            let name = field(&mut labels);
            let (&count, rest) = labels.split_first().expect("the number of tags");
            labels = rest;
            let tags = (0..count).map(|_| (field(&mut labels), field(&mut labels))).collect();
            let row = &readings[place * self.points..][..self.points];
            Series { name, tags, row: row.iter().copied().map(f64::from_bits).collect() }
        })
    }
}

/// Takes a length and as many bytes off the front.
fn field<'a>(labels: &mut &'a [u8]) -> &'a [u8] {
    let (&length, rest) = labels.split_first().expect("a length");
    let (field, rest) = rest.split_at(length.into());
    *labels = rest;
    field
}

/// A series of an answer: its name, its tags as keys and values, and its readings. Labels are bytes, which need not be
/// UTF-8. A reading keeps its bits; any NaN is a missing one.
#[derive(Clone, Debug, PartialEq)]
pub struct Series<'a> {
    pub name: &'a [u8],
    pub tags: Vec<(&'a [u8], &'a [u8])>,
    pub row: Vec<f64>,
}

/// One vector of a call: a label part and the readings' bits, row by row. The label part has 18 bytes of sizes (series,
/// points, length of the label array, two bytes each; start, eight; step, four; little-endian), then the label array.
#[derive(Clone, Copy, Debug)]
pub struct Side<'a> {
    pub labels: &'a [u8],
    pub readings: &'a [u64],
}

extern "C" {
    // bindings/c/nosingcatnip.h
    fn nosingcatnip_exec_binop(
        query: *const u8,
        query_len: usize,
        left_labels: *const u8,
        left_labels_len: usize,
        left: *const u64,
        left_len: usize,
        right_labels: *const u8,
        right_labels_len: usize,
        right: *const u64,
        right_len: usize,
        out_labels: *mut u8,
        out_labels_len: usize,
        out: *mut u64,
        out_len: usize,
        result: *mut u64,
    );

    fn nosingcatnip_exec_aggregate(
        request: *const u8,
        request_len: usize,
        labels: *const u8,
        labels_len: usize,
        readings: *const u64,
        readings_len: usize,
        out_labels: *mut u8,
        out_labels_len: usize,
        out: *mut u64,
        out_len: usize,
        result: *mut u64,
    );

    fn nosingcatnip_export_text(
        labels: *const u8,
        labels_len: usize,
        readings: *const u64,
        readings_len: usize,
        out: *mut u8,
        out_len: usize,
        result: *mut u64,
    );
}

/// Runs a query over two vectors into the two lent output parts. A refusal leaves both as they were; an answer changes
/// only its own length at the start of each.
///
/// The query's last byte is its allowance, 0 to 8: at how many places a row that is merged may overlap the row merged
/// so far. One above 8 is refused with 13.
///
/// In bytes, `/` without modifier, of fed{press="A"} [10, missing, 6] and waste{press="A"} [2, 1, 3]:
///
/// ```
/// use nosingcatnip::{exec_binop, Answer, Side};
///
/// let bits = |row: [f64; 3]| row.map(f64::to_bits);
/// // series, points, length of the label array, start 0, step 3,600,000; name; one tag
/// let fed = b"\x01\0\x03\0\x0d\0\0\0\0\0\0\0\0\0\x80\xee\x36\0\x03fed\x01\x05press\x01A";
/// let waste = b"\x01\0\x03\0\x0f\0\0\0\0\0\0\0\0\0\x80\xee\x36\0\x05waste\x01\x05press\x01A";
/// let fed = Side { labels: fed, readings: &bits([10.0, f64::NAN, 6.0]) };
/// let waste = Side { labels: waste, readings: &bits([2.0, 1.0, 3.0]) };
/// let (mut labels, mut readings) = ([0; 64], [0; 8]);
/// // the operator, no modifiers, two empty lists, the allowance
/// let answer = exec_binop(&[4, 0, 0, 0, 0, 0, 2], fed, waste, &mut labels, &mut readings);
/// assert_eq!(answer, Ok(Answer { series: 1, points: 3, start: 0, step: 3_600_000, label_bytes: 10 }));
/// assert_eq!(&labels[..10], b"\0\x01\x05press\x01A");
/// assert_eq!(readings[..3], [5f64.to_bits(), 0x7ff8_0000_0000_0000, 2f64.to_bits()]);
/// ```
pub fn exec_binop(
    query: &[u8],
    left: Side,
    right: Side,
    out_labels: &mut [u8],
    out: &mut [u64],
) -> Result<Answer, Refusal> {
    let mut result = [0u64; 8];
    // SAFETY: each pointer and length are a slice's, never null and aligned; the borrows keep the output parts apart
    // from the inputs and from each other; the function has no precondition, and writes within its output parts and
    // eight numbers.
    unsafe {
        nosingcatnip_exec_binop(
            query.as_ptr(),
            query.len(),
            left.labels.as_ptr(),
            left.labels.len(),
            left.readings.as_ptr(),
            left.readings.len(),
            right.labels.as_ptr(),
            right.labels.len(),
            right.readings.as_ptr(),
            right.readings.len(),
            out_labels.as_mut_ptr(),
            out_labels.len(),
            out.as_mut_ptr(),
            out.len(),
            result.as_mut_ptr(),
        );
    }
    reported(result)
}

/// Runs an aggregate over one vector into the two lent output parts. A refusal leaves both as they were; an answer
/// changes only its own length at the start of each.
///
/// The request is a byte for the aggregate (0 sum, 1 min, 2 max, 3 count, 4 avg), a byte for the grouping (0 by, 1
/// without), and a list: the number of its labels, and each label behind its length. An aggregate above 4 is refused
/// with 14, whatever follows.
///
/// By keeps the listed tags, and the name if `__name__` is listed; without removes the listed tags, and always the
/// name. The series whose labels are then equal, name included, form one series of the answer, in the order of their
/// first places. Missing readings are skipped, and a point without a reading is missing, for count too.
///
/// ```
/// use nosingcatnip::{exec_aggregate, Vector};
///
/// let mut fed = Vector::new(2, 0, 3_600_000);
/// fed.push("fed", &[("press", "A"), ("stock", "matt")], &[10.0, f64::NAN])?;
/// fed.push("fed", &[("press", "B"), ("stock", "gloss")], &[4.0, f64::NAN])?;
/// fed.push("fed", &[("press", "C"), ("stock", "matt")], &[2.5, 6.0])?;
/// let (mut labels, mut readings) = ([0; 64], [0; 8]);
/// // sum, by, a list of one label
/// let request = b"\0\0\x01\x05stock";
/// let answer = exec_aggregate(request, fed.side(), &mut labels, &mut readings)?;
/// let totals: Vec<_> = answer.read(&labels, &readings).collect();
/// assert_eq!(totals.len(), 2);
/// assert_eq!(totals[0].tags, [(&b"stock"[..], &b"matt"[..])]);
/// assert_eq!(totals[0].row, [12.5, 6.0]);
/// assert_eq!(totals[1].tags, [(&b"stock"[..], &b"gloss"[..])]);
/// assert_eq!(totals[1].row[0], 4.0);
/// assert!(totals[1].row[1].is_nan());
/// # Ok::<(), Box<dyn std::error::Error>>(())
/// ```
pub fn exec_aggregate(request: &[u8], vector: Side, out_labels: &mut [u8], out: &mut [u64]) -> Result<Answer, Refusal> {
    let mut result = [0u64; 8];
    // SAFETY: as in `exec_binop`.
    unsafe {
        nosingcatnip_exec_aggregate(
            request.as_ptr(),
            request.len(),
            vector.labels.as_ptr(),
            vector.labels.len(),
            vector.readings.as_ptr(),
            vector.readings.len(),
            out_labels.as_mut_ptr(),
            out_labels.len(),
            out.as_mut_ptr(),
            out.len(),
            result.as_mut_ptr(),
        );
    }
    reported(result)
}

/// Writes the text of one vector in the Prometheus text exposition format, version 0.0.4, at the start of the lent
/// output part, and gives its length. A refusal leaves the part as it was; a text changes nothing behind it. It is
/// UTF-8.
///
/// Each present reading is a line, series by series: the name; the tags in braces, where there are any; the value, with
/// three decimals, which is the exact number rounded to the nearest, a half away from zero; the time in milliseconds. A
/// missing reading has no line.
///
/// A series is refused with 15 where its name is empty, where its name or a key begins with a digit or has a byte other
/// than ASCII letters, digits, `_` and, in names, `:`, or where a value is not UTF-8; else with 16 where a present
/// reading has a size of 2^40 or more. The second field is its place. A text longer than the part is refused with 10.
///
/// ```
/// use nosingcatnip::{export_text, Vector};
///
/// let mut fed = Vector::new(3, 1_772_431_200_000, 3_600_000);
/// fed.push("fed", &[("press", "A")], &[10.0, f64::NAN, 0.0625])?;
/// let mut out = [0; 128];
/// let length = export_text(fed.side(), &mut out)?;
/// let text = "fed{press=\"A\"} 10.000 1772431200000\nfed{press=\"A\"} 0.063 1772438400000\n";
/// assert_eq!(std::str::from_utf8(&out[..length])?, text);
/// # Ok::<(), Box<dyn std::error::Error>>(())
/// ```
pub fn export_text(vector: Side, out: &mut [u8]) -> Result<usize, Refusal> {
    let mut result = [0u64; 4];
    // SAFETY: as in `exec_binop`, with four numbers.
    unsafe {
        nosingcatnip_export_text(
            vector.labels.as_ptr(),
            vector.labels.len(),
            vector.readings.as_ptr(),
            vector.readings.len(),
            out.as_mut_ptr(),
            out.len(),
            result.as_mut_ptr(),
        );
    }
    match result {
        [0, _, _, length] => Ok(length as usize),
        [number, first, second, _] => Err(Refusal { number, fields: [first, second] }),
    }
}

/// What the eight numbers of a call say.
fn reported(result: [u64; 8]) -> Result<Answer, Refusal> {
    let [number, first, second, series, points, start, step, label_bytes] = result;
    match number {
        // An answer's series and points have two bytes in its sizes, its step four.
        0 => Ok(Answer {
            series: series as usize,
            points: points as usize,
            start,
            step: step as u32,
            label_bytes: label_bytes as usize,
        }),
        number => Err(Refusal { number, fields: [first, second] }),
    }
}
