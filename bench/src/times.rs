//! The times of a workload: the Rust's, the library's, and those of a plain copy, in turn.
//!
//! Counted for the Rust: the call of `exec_binop` on series already made, so neither their copying before each turn (the Rust
//! takes its arguments) nor the dropping of its answer; for an aggregate and for an export, the loop of `plain` on rows already
//! made. Counted for the library: the whole call on bytes, the taking of query or request and of vectors included. Its output parts
//! are lent anew each turn and never cleared; nothing is cleared in the measured time. The Rust's hashers and rayon are stand-ins: a
//! quick hasher, and one thread.
use std::time::Instant;

use oracle::rust::{argument, Argument};

use crate::plain;
use crate::workloads::Work;

/// Of one program's turns, in microseconds: on a busy machine the fastest says more.
pub struct Times {
    pub median: f64,
    pub fastest: f64,
}

impl Times {
    fn of(mut turns: Vec<f64>) -> Times {
        turns.sort_by(f64::total_cmp);
        Times { median: turns[turns.len() / 2], fastest: turns[0] }
    }
}

pub struct Measured {
    pub rust: Times,
    /// None where the library is not linked.
    pub library: Option<Times>,
    pub copy: Times,
}

pub fn measure(work: &Work, turns: usize) -> Measured {
    match work {
        Work::Query(call) => {
            let (query, left, right) = reference::taken(call).expect("a good call");
            let made = || argument(&query, &left, &right).expect("UTF-8");
            in_turn(work, turns, made, |a: Argument| metricsql_runtime::exec_binop(a.op, &a.modifier, a.left, a.right))
        }
        Work::Aggregate(call) => {
            let (by, points, rows) = plain::made(call);
            in_turn(work, turns, || (), |()| plain::aggregated(&by, points, &rows))
        }
        Work::Export(call) => {
            let (grid, rows) = plain::made_export(call);
            let mut out = Vec::with_capacity(call.room);
            in_turn(work, turns, || (), |()| plain::exported(grid, &rows, &mut out))
        }
    }
}

/// The copy, the Rust on what is made for it before each turn, and the library.
fn in_turn<A, T>(work: &Work, turns: usize, made: impl Fn() -> A, mut run: impl FnMut(A) -> T) -> Measured {
    let (mut rust, mut copy, mut library) = (Vec::new(), Vec::new(), Vec::new());
    let (mut plain_copy, mut linked) = (Copy::of(work), linked(work));
    for _ in 0..turns {
        timed(&mut copy, || plain_copy.turn());
        let argument = made();
        timed(&mut rust, || run(argument));
        if let Some(run) = &mut linked {
            timed(&mut library, run);
        }
    }
    Measured { rust: Times::of(rust), library: linked.map(|_| Times::of(library)), copy: Times::of(copy) }
}

/// What the work gives is dropped here, behind the measured time.
fn timed<T>(turns: &mut Vec<f64>, work: impl FnOnce() -> T) {
    let start = Instant::now();
    let answer = work();
    turns.push(start.elapsed().as_secs_f64() * 1e6);
    std::hint::black_box(&answer);
}

/// The machine's limit: what reads every input byte and writes as many as the answer has can hardly take less time. Like the
/// Rust and the library it has the inputs in memory of its own.
struct Copy {
    input: Vec<u64>,
    out: Vec<u64>,
}

impl Copy {
    fn of(work: &Work) -> Copy {
        let answered = |answer: reference::Answer| answer.readings.len() + words(answer.labels.len());
        let (inputs, length): (Vec<(&[u8], &[u64])>, _) = match work {
            Work::Query(c) => (vec![(&c.left_labels, &c.left), (&c.right_labels, &c.right)], reference::call(c).map(answered)),
            Work::Aggregate(c) => (vec![(&c.labels, &c.readings)], reference::aggregate(c).map(answered)),
            Work::Export(c) => (vec![(&c.labels, &c.readings)], reference::export(c).map(|text| words(text.len()))),
        };
        let mut input = inputs.iter().flat_map(|(_, readings)| readings.iter().copied()).collect::<Vec<_>>();
        input.resize(input.len() + inputs.iter().map(|(labels, _)| words(labels.len())).sum::<usize>(), 0);
        Copy { input, out: vec![0; length.expect("an answer")] }
    }

    /// Copies input to the answer's length, and only reads what is left of it; a longer answer is copied in parts.
    fn turn(&mut self) -> u64 {
        for part in self.out.chunks_mut(self.input.len()) {
            part.copy_from_slice(&self.input[..part.len()]);
        }
        std::hint::black_box(&mut self.out);
        let rest = self.out.len().min(self.input.len());
        self.input[rest..].iter().fold(0, |sum, word| sum ^ word)
    }
}

/// How many words of eight hold so many bytes.
fn words(bytes: usize) -> usize {
    bytes.div_ceil(8)
}

/// The library's turn, into output parts of its own; what it gives is the number of the answer's series, or of the text's bytes.
#[cfg(feature = "library")]
fn linked(work: &Work) -> Option<impl FnMut() -> Result<usize, nosingcatnip::Refusal> + '_> {
    use nosingcatnip::{exec_aggregate, exec_binop, export_text, Side};
    let room = match work {
        Work::Query(call) => call.room,
        Work::Aggregate(call) => call.room,
        Work::Export(call) => reference::Room { labels: call.room, readings: 0 },
    };
    let (mut labels, mut readings) = (vec![0; room.labels], vec![0; room.readings]);
    Some(move || match work {
        Work::Query(c) => {
            let left = Side { labels: &c.left_labels, readings: &c.left };
            let right = Side { labels: &c.right_labels, readings: &c.right };
            exec_binop(&c.query, left, right, &mut labels, &mut readings).map(|answer| answer.series)
        }
        Work::Aggregate(c) => {
            let vector = Side { labels: &c.labels, readings: &c.readings };
            exec_aggregate(&c.request, vector, &mut labels, &mut readings).map(|answer| answer.series)
        }
        Work::Export(c) => export_text(Side { labels: &c.labels, readings: &c.readings }, &mut labels),
    })
}

#[cfg(not(feature = "library"))]
fn linked(_: &Work) -> Option<fn()> {
    None
}
