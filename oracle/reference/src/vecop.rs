//! The program `vecop`: from its input to all that it prints.
use crate::label::take_record;
use crate::query::take_query;
use crate::vector::{take_labels, take_vector, Vector, SIZES};
use crate::{answer, Answer, Call, Outcome, Refusal, Room};

/// "reads query, left, right from standard input, at most 65,536 bytes"
const MAX_INPUT: usize = 65_536;

/// "Its output parts hold 65,535 label bytes and 8,192 readings."
const ROOM: Room = Room { labels: 65_535, readings: 8_192 };

/// The three parts of a call, "each after its length (4 bytes)"; the call's room is not among them.
pub fn frame(call: &Call) -> Vec<u8> {
    let mut out = Vec::new();
    let vectors = [(&call.left_labels, &call.left), (&call.right_labels, &call.right)];
    let mut parts = vec![call.query.clone()];
    for (labels, readings) in vectors {
        let mut part = labels.clone();
        part.extend(readings.iter().flat_map(|r| r.to_le_bytes()));
        parts.push(part);
    }
    for part in parts {
        out.extend_from_slice(&(part.len() as u32).to_le_bytes());
        out.extend_from_slice(&part);
    }
    out
}

/// All that is printed for `input`.
pub fn vecop(input: &[u8]) -> Vec<u8> {
    match unframed(input) {
        None => b"unreadable\n".to_vec(),
        Some([query, left, right]) => match ran(query, left, right) {
            Err(r) => format!("refused {} {} {}\n", r.number, r.fields[0], r.fields[1]).into_bytes(),
            Ok(a) => printed(&a),
        },
    }
}

/// "Input too long, a length or part cut short, or bytes after the third part print `unreadable`, before any refusal."
fn unframed(input: &[u8]) -> Option<[&[u8]; 3]> {
    if input.len() > MAX_INPUT {
        return None;
    }
    let mut rest = input;
    let mut parts: [&[u8]; 3] = [&[]; 3];
    for part in &mut parts {
        let (length, after) = rest.split_first_chunk::<4>()?;
        let (bytes, after) = after.split_at_checked(u32::from_le_bytes(*length) as usize)?;
        *part = bytes;
        rest = after;
    }
    rest.is_empty().then_some(parts)
}

fn ran(query: &[u8], left: &[u8], right: &[u8]) -> Outcome {
    let query = take_query(query)?;
    let left = take_part(0, left)?;
    let right = take_part(1, right)?;
    answer(&query, &left, &right, ROOM)
}

/// "A vector's readings are what follows its labels": what follows the sizes and the array of the stated length.
/// "5, readings not n times p (in `vecop`, bytes not 8 times that)."
fn take_part(side: usize, part: &[u8]) -> Result<Vector, Refusal> {
    let stated = if part.len() < SIZES { 0 } else { usize::from(u16::from_le_bytes([part[4], part[5]])) };
    let (labels, readings) = part.split_at(part.len().min(SIZES + stated));
    take_labels(side, labels)?;
    if readings.len() % 8 != 0 {
        return Err(Refusal::new(5, side, 0));
    }
    let words: Vec<u64> = readings.chunks_exact(8).map(|b| u64::from_le_bytes(b.try_into().expect("eight bytes"))).collect();
    take_vector(side, labels, &words)
}

/// "Fields: series, points; then a line a series: the name, braces always, tags as key, `=` and the value in double quotes,
/// parted by commas, and after one space each the readings' bits in sixteen lowercase hexadecimal digits." 02: "`vecop` prints start
/// and step after the points."
fn printed(a: &Answer) -> Vec<u8> {
    let mut out = format!("answer {} {} {} {}\n", a.series, a.points, a.grid.start, a.grid.step).into_bytes();
    let mut at = 0;
    for i in 0..a.series {
        let (labels, used) = take_record(&a.labels[at..]).expect("an answer's record");
        at += used;
        escape(&mut out, &labels.name);
        out.push(b'{');
        for (k, tag) in labels.tags.iter().enumerate() {
            if k > 0 {
                out.push(b',');
            }
            escape(&mut out, &tag.key);
            out.extend_from_slice(b"=\"");
            escape(&mut out, &tag.value);
            out.push(b'"');
        }
        out.push(b'}');
        for reading in &a.readings[i * a.points..(i + 1) * a.points] {
            out.extend_from_slice(format!(" {reading:016x}").as_bytes());
        }
        out.push(b'\n');
    }
    out
}

/// "Bytes outside 21 to 7e (hexadecimal) and `"` `\` `{` `}` `,` `=` `%` print as % and two lowercase hexadecimal digits."
fn escape(out: &mut Vec<u8>, bytes: &[u8]) {
    for &byte in bytes {
        if !(0x21..=0x7e).contains(&byte) || b"\"\\{},=%".contains(&byte) {
            out.extend_from_slice(format!("%{byte:02x}").as_bytes());
        } else {
            out.push(byte);
        }
    }
}
