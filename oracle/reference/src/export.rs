//! The text of one vector for the shop screen. The sentences in quotes are those of 02's card "Export for the shop screen", where
//! no other is named.
use crate::label::Labels;
use crate::reading::is_missing;
use crate::vector::{take_vector, Vector};
use crate::Refusal;

/// One call of the export: the vector's label part and readings, and the length of the output part.
#[derive(Clone, Debug, PartialEq, Eq)]
pub struct ExportCall {
    pub labels: Vec<u8>,
    pub readings: Vec<u64>,
    pub room: usize,
}

/// The text, or the one refusal.
pub type Exported = Result<Vec<u8>, Refusal>;

/// What such a call gives. Of the card "Totals by press": "Wherever one vector is taken, its faults are named with side 0." Then
/// 15 and 16: "the first series at fault is named, 15 before 16 within it", whether it has a line or not. "Both come before
/// number 10", which "covers an output part too short".
pub fn export(c: &ExportCall) -> Exported {
    let vector = take_vector(0, &c.labels, &c.readings)?;
    for (place, series) in vector.series.iter().enumerate() {
        if !can_be_written(&series.labels) {
            return Err(Refusal::new(15, 0, place));
        }
        if series.row.iter().any(|reading| is_too_large(*reading)) {
            return Err(Refusal::new(16, 0, place));
        }
    }
    let text = text_of(&vector);
    if text.len() > c.room {
        return Err(Refusal::new(10, 0, 0));
    }
    Ok(text)
}

/// "15, an empty name, a name or key with a digit first or a byte other than ASCII letters, digits, `_` and, in names, `:`, or a
/// tag value that isn't UTF-8". A key is never empty: 01 has 4 for it.
fn can_be_written(labels: &Labels) -> bool {
    let is_plain = |byte: &u8| byte.is_ascii_alphanumeric() || *byte == b'_';
    let begins_well = |word: &[u8]| word.first().is_some_and(|byte| !byte.is_ascii_digit());
    begins_well(&labels.name)
        && labels.name.iter().all(|byte| is_plain(byte) || *byte == b':')
        && labels.tags.iter().all(|tag| begins_well(&tag.key) && tag.key.iter().all(is_plain))
        && labels.tags.iter().all(|tag| std::str::from_utf8(&tag.value).is_ok())
}

/// "16, a present reading of size 2 to the 40th or more."
fn is_too_large(reading: u64) -> bool {
    let size = f64::from_bits(reading).abs();
    !is_missing(reading) && size >= (1u64 << 40) as f64
}

/// "Write each present reading as name, tags in braces if any, value and time in milliseconds, parted by single spaces and ended
/// by a line feed, series by series". "Missing readings give no line."
fn text_of(vector: &Vector) -> Vec<u8> {
    let times = vector.grid.times(vector.points);
    let mut text = Vec::new();
    for series in &vector.series {
        let labels = written_labels(&series.labels);
        for (reading, time) in series.row.iter().zip(&times).filter(|(reading, _)| !is_missing(**reading)) {
            text.extend_from_slice(&labels);
            text.extend_from_slice(format!(" {} {time}\n", written_value(*reading)).as_bytes());
        }
    }
    text
}

/// "no space stands before the braces, nor in them outside tag values, and tags are parted by commas. Backslash, double quote and
/// line feed in tag values are escaped as the format says."
fn written_labels(labels: &Labels) -> Vec<u8> {
    let mut tags = Vec::new();
    for tag in &labels.tags {
        let value: Vec<u8> = tag.value.iter().flat_map(|byte| escaped(*byte)).collect();
        tags.push([&tag.key[..], b"=\"", &value, b"\""].concat());
    }
    match tags.len() {
        0 => labels.name.clone(),
        _ => [&labels.name[..], b"{", &tags.join(&b","[..]), b"}"].concat(),
    }
}

/// The format, version 0.0.4: "label_value can be any sequence of UTF-8 characters, but the backslash (\), double-quote ("), and
/// line feed (\n) characters have to be escaped as \\, \", and \n, respectively."
fn escaped(byte: u8) -> Vec<u8> {
    match byte {
        b'\\' => b"\\\\".to_vec(),
        b'"' => b"\\\"".to_vec(),
        b'\n' => b"\\n".to_vec(),
        other => vec![other],
    }
}

/// "The value has three decimals, taken from the exact binary64 value and rounded to nearest, a half away from zero; a printed
/// zero has no sign." For readings below 2 to the 40th in size.
///
/// Such a reading is a whole number divided by a power of two. Ten thousand times that, cut to a whole number, ends with its
/// fourth decimal, and that digit alone says whether the third goes up: from 5 on what is cut off is a half or more.
pub fn written_value(reading: u64) -> String {
    let (exponent, fraction) = (reading >> 52 & 0x7ff, reading & ((1 << 52) - 1));
    let (whole, power) = if exponent == 0 { (fraction, 1074) } else { (fraction + (1 << 52), 1075 - exponent) };
    let ten_thousandths = (u128::from(whole) * 10_000).checked_shr(power as u32).unwrap_or(0);
    let (thousandths, fourth) = (ten_thousandths / 10, ten_thousandths % 10);
    let rounded = if fourth >= 5 { thousandths + 1 } else { thousandths };
    let sign = if reading >> 63 == 1 && rounded > 0 { "-" } else { "" };
    format!("{sign}{}.{:03}", rounded / 1000, rounded % 1000)
}
