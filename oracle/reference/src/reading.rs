//! Readings: binary64 by their bits.
use crate::query::Operator;
use crate::MAX_ALLOWANCE;

/// "An N from arithmetic, or written by a rule that gives N, is hexadecimal 7ff8000000000000".
pub const MISSING: u64 = 0x7ff8_0000_0000_0000;

const ONE: u64 = 0x3ff0_0000_0000_0000;

/// "'Missing', written N, is any NaN."
pub fn is_missing(reading: u64) -> bool {
    f64::from_bits(reading).is_nan()
}

#[derive(Clone, Copy, Debug, PartialEq, Eq)]
pub enum Merged {
    Done,
    Overlapping,
    /// Number 6.
    Unequal,
    /// Number 13.
    TooMuchAllowed,
}

/// "`merge_non_overlapping_timeseries` refuses at the third place where both have a reading, or if p is at most 2; else the
/// source's readings overwrite." 02: "Merging answers overlapping at the first place beyond [the allowance], or if p is at most
/// 2." "Merging alone answers 6 for rows of unequal length, else done or overlapping; only done changes the destination row."
/// 02: "13, an allowance above 8 ...; merging alone gives it too, before number 6."
pub fn merge(destination: &mut [u64], source: &[u64], allowance: usize) -> Merged {
    if allowance > MAX_ALLOWANCE {
        return Merged::TooMuchAllowed;
    }
    if destination.len() != source.len() {
        return Merged::Unequal;
    }
    let both = destination.iter().zip(source).filter(|(d, s)| !is_missing(**d) && !is_missing(**s)).count();
    if both > allowance || source.len() <= 2 {
        return Merged::Overlapping;
    }
    for (d, s) in destination.iter_mut().zip(source) {
        if !is_missing(*s) {
            *d = *s;
        }
    }
    Merged::Done
}

/// The reading that an operator outside the set rules gives; `bool` matters to comparisons alone.
pub fn combine(op: Operator, bool_flag: bool, left: u64, right: u64) -> u64 {
    if op.is_comparison() {
        compare(op, bool_flag, left, right)
    } else {
        arithmetic(op, left, right)
    }
}

/// "Sums, differences, products, quotients and remainders are rounded once." The remainder is Rust's `%`.
fn arithmetic(op: Operator, left: u64, right: u64) -> u64 {
    let (l, r) = (f64::from_bits(left), f64::from_bits(right));
    let made = match op {
        Operator::Add => l + r,
        Operator::Sub => l - r,
        Operator::Mul => l * r,
        Operator::Div => l / r,
        Operator::Mod => l % r,
        _ => unreachable!("{op:?} is not arithmetic"),
    };
    if made.is_nan() {
        MISSING
    } else {
        made.to_bits()
    }
}

/// "Comparison gives the left reading if true, else N. With bool: left N gives N, else 1 or 0. [...] `!=` with one side N is true;
/// other comparisons with N are false." 02: "Every comparison with a missing right reading gives missing, bool or not".
fn compare(op: Operator, bool_flag: bool, left: u64, right: u64) -> u64 {
    if is_missing(right) {
        return MISSING;
    }
    let (l, r) = (f64::from_bits(left), f64::from_bits(right));
    let holds = match op {
        Operator::NotEq if is_missing(left) => true,
        _ if is_missing(left) => false,
        Operator::Eql => l == r,
        Operator::NotEq => l != r,
        Operator::Gt => l > r,
        Operator::Gte => l >= r,
        Operator::Lt => l < r,
        Operator::Lte => l <= r,
        _ => unreachable!("{op:?} is not a comparison"),
    };
    match (bool_flag, holds) {
        (true, _) if is_missing(left) => MISSING,
        (true, true) => ONE,
        (true, false) => 0,
        (false, true) => left,
        (false, false) => MISSING,
    }
}
