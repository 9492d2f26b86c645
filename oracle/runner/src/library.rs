//! The library under test, held against the reference bit for bit.
use std::io::{Read, Write};
use std::process::{Command, Stdio};

use reference::{vecop, Call};
#[cfg(feature = "library")]
use reference::{AggregateCall, ExportCall};

/// A program or a linked library that takes calls.
pub trait Library {
    fn name(&self) -> String;

    /// Runs the call and compares all that it gives and leaves behind with the reference.
    fn check(&mut self, call: &Call) -> Result<(), String>;
}

/// The program `vecop`, run once a call. Its output parts have their own lengths, so the call's room is not looked at.
pub struct Program {
    /// The words that run it, parted by spaces: a path, or a loader with what it takes.
    pub words: String,
}

impl Program {
    pub fn prints(&self, input: &[u8]) -> Result<Vec<u8>, String> {
        let mut words = self.words.split_whitespace();
        let mut child = Command::new(words.next().unwrap_or_default())
            .args(words)
            .stdin(Stdio::piped())
            .stdout(Stdio::piped())
            .spawn()
            .map_err(|e| format!("{}: {e}", self.words))?;
        let mut stdin = child.stdin.take().expect("piped");
        let mut stdout = child.stdout.take().expect("piped");
        // It reads all before it prints; where it stops reading at its limit, the pipe may be closed on us.
        let _ = stdin.write_all(input);
        drop(stdin);
        let mut printed = Vec::new();
        stdout.read_to_end(&mut printed).map_err(|e| e.to_string())?;
        let status = child.wait().map_err(|e| e.to_string())?;
        if status.success() {
            Ok(printed)
        } else {
            Err(format!("{} ended with {status}", self.words))
        }
    }

    pub fn check_input(&self, input: &[u8]) -> Result<(), String> {
        let (printed, expected) = (self.prints(input)?, vecop(input));
        if printed == expected {
            return Ok(());
        }
        let shown = |b: &[u8]| String::from_utf8_lossy(&b[..b.len().min(2000)]).into_owned();
        Err(format!("vecop prints\n{}the reference\n{}", shown(&printed), shown(&expected)))
    }
}

impl Library for Program {
    fn name(&self) -> String {
        format!("vecop ({})", self.words)
    }

    fn check(&mut self, call: &Call) -> Result<(), String> {
        self.check_input(&reference::frame(call))
    }
}

/// The static library, through its C interface. It is lent the middle of two buffers that hold a pattern: what it may not
/// change, behind an answer, under a refusal or beyond the lent part, must hold the pattern afterwards.
#[cfg(feature = "library")]
#[derive(Default)]
pub struct Linked {
    label_pattern: Vec<u8>,
    reading_pattern: Vec<u64>,
    labels: Vec<u8>,
    readings: Vec<u64>,
}

#[cfg(feature = "library")]
const BORDER: usize = 16;

#[cfg(feature = "library")]
impl Linked {
    fn grow(&mut self, room: reference::Room) {
        while self.labels.len() < room.labels + 2 * BORDER {
            let byte = (self.labels.len() * 151 + 7) as u8;
            self.label_pattern.push(byte);
            self.labels.push(byte);
        }
        while self.readings.len() < room.readings + 2 * BORDER {
            let word = (self.readings.len() as u64).wrapping_mul(0x9e37_79b9_7f4a_7c15) ^ 0x5bd1_e995;
            self.reading_pattern.push(word);
            self.readings.push(word);
        }
    }

    /// Lends the two output parts to a run, and compares what it gives and leaves behind with what is expected.
    fn held(
        &mut self,
        room: reference::Room,
        run: impl FnOnce(&mut [u8], &mut [u64]) -> Result<nosingcatnip::Answer, nosingcatnip::Refusal>,
        expected: reference::Outcome,
    ) -> Result<(), String> {
        self.grow(room);
        let given = run(&mut self.labels[BORDER..BORDER + room.labels], &mut self.readings[BORDER..BORDER + room.readings]);
        let given = given.map(|a| (a.series, a.points, a.start, a.step, a.label_bytes)).map_err(|r| (r.number, r.fields));
        let (expected, labels, readings) = match expected {
            Err(r) => (Err((r.number, r.fields)), vec![], vec![]),
            Ok(a) => (Ok((a.series, a.points, a.grid.start, a.grid.step, a.labels.len())), a.labels, a.readings),
        };
        let wrong_label = left_behind(&mut self.labels, &self.label_pattern, &labels);
        let wrong_reading = left_behind(&mut self.readings, &self.reading_pattern, &readings);
        if given != expected {
            return Err(format!("the library gives {given:?}, the reference {expected:?}"));
        }
        if let Some(at) = wrong_label {
            return Err(format!("the label byte at {at} of the lent part differs"));
        }
        match wrong_reading {
            Some(at) => Err(format!("the reading at {at} of the lent part differs")),
            None => Ok(()),
        }
    }

    /// Runs the aggregate and compares all that it gives and leaves behind with the reference.
    pub fn check_aggregate(&mut self, call: &AggregateCall) -> Result<(), String> {
        let vector = nosingcatnip::Side { labels: &call.labels, readings: &call.readings };
        let run = |labels: &mut [u8], readings: &mut [u64]| nosingcatnip::exec_aggregate(&call.request, vector, labels, readings);
        self.held(call.room, run, reference::aggregate(call))
    }

    /// Runs the export, into the middle of the buffer of label bytes, and compares all that it gives and leaves behind with the
    /// reference, each of the four numbers of its result too.
    pub fn check_export(&mut self, call: &ExportCall) -> Result<(), String> {
        self.grow(reference::Room { labels: call.room, readings: 0 });
        let given = raw_export(call, &mut self.labels[BORDER..BORDER + call.room]);
        let (expected, text) = match reference::export(call) {
            Err(r) => ([r.number, r.fields[0], r.fields[1], 0], vec![]),
            Ok(text) => ([0, 0, 0, text.len() as u64], text),
        };
        let wrong = left_behind(&mut self.labels, &self.label_pattern, &text);
        if given != expected {
            return Err(format!("the library gives {given:?}, the reference {expected:?}"));
        }
        match wrong {
            Some(at) => Err(format!("the byte at {at} of the lent part differs")),
            None => Ok(()),
        }
    }
}

#[cfg(feature = "library")]
extern "C" {
    // bindings/c/nosingcatnip.h
    fn nosingcatnip_export_text(
        labels: *const u8,
        labels_len: usize,
        readings: *const u64,
        readings_len: usize,
        out: *mut u8,
        out_len: usize,
        result: *mut u64,
    );
}

/// The four numbers that the linked library writes for an export; the crate over it hands on those that an outcome needs.
#[cfg(feature = "library")]
fn raw_export(call: &ExportCall, out: &mut [u8]) -> [u64; 4] {
    let mut result = [0x5bd1_e995_9e37_79b9; 4];
    // SAFETY: each pointer and length are a slice's, the output part is borrowed for it alone, and the function writes within it and
    // four numbers.
    unsafe {
        nosingcatnip_export_text(
            call.labels.as_ptr(),
            call.labels.len(),
            call.readings.as_ptr(),
            call.readings.len(),
            out.as_mut_ptr(),
            out.len(),
            result.as_mut_ptr(),
        );
    }
    result
}

/// What the linked library alone gives for an aggregate.
#[cfg(feature = "library")]
pub fn linked_aggregate(call: &AggregateCall) -> reference::Outcome {
    let (mut labels, mut readings) = (vec![0; call.room.labels], vec![0; call.room.readings]);
    let vector = nosingcatnip::Side { labels: &call.labels, readings: &call.readings };
    match nosingcatnip::exec_aggregate(&call.request, vector, &mut labels, &mut readings) {
        Err(r) => Err(reference::Refusal { number: r.number, fields: r.fields }),
        Ok(a) => {
            labels.truncate(a.label_bytes);
            readings.truncate(a.series * a.points);
            let grid = reference::Grid { start: a.start, step: a.step };
            Ok(reference::Answer { series: a.series, points: a.points, grid, labels, readings })
        }
    }
}

#[cfg(feature = "library")]
impl Library for Linked {
    fn name(&self) -> String {
        "the linked library".to_string()
    }

    fn check(&mut self, call: &Call) -> Result<(), String> {
        let left = nosingcatnip::Side { labels: &call.left_labels, readings: &call.left };
        let right = nosingcatnip::Side { labels: &call.right_labels, readings: &call.right };
        let run = |labels: &mut [u8], readings: &mut [u64]| nosingcatnip::exec_binop(&call.query, left, right, labels, readings);
        self.held(call.room, run, reference::call(call))
    }
}

/// Where a lent buffer first differs from the answer and the pattern around it, counted from the start of the lent part; the
/// pattern is put back.
#[cfg(feature = "library")]
fn left_behind<T: Copy + PartialEq>(buffer: &mut [T], pattern: &[T], answer: &[T]) -> Option<isize> {
    let end = BORDER + answer.len();
    let as_expected = buffer[..BORDER] == pattern[..BORDER] && buffer[BORDER..end] == *answer && buffer[end..] == pattern[end..];
    let wrong = if as_expected {
        buffer[BORDER..end].copy_from_slice(&pattern[BORDER..end]);
        None
    } else {
        let expected = pattern[..BORDER].iter().chain(answer).chain(&pattern[end..]);
        let at = buffer.iter().zip(expected).position(|(b, e)| b != e);
        buffer.copy_from_slice(pattern);
        at
    };
    wrong.map(|at| at as isize - BORDER as isize)
}
