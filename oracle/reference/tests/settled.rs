//! 01's settled examples, its one printed answer, 02's grids, 02's allowance and 02's comparisons.
use reference::*;

const N: u64 = MISSING;

fn row(values: &[f64]) -> Vec<u64> {
    values.iter().map(|v| if v.is_nan() { N } else { v.to_bits() }).collect()
}

fn series(name: &str, tags: &[(&str, &str)], values: &[f64]) -> Series {
    let tags = tags.iter().map(|(k, v)| Tag { key: k.as_bytes().to_vec(), value: v.as_bytes().to_vec() }).collect();
    Series { labels: Labels { name: name.as_bytes().to_vec(), tags }, row: row(values) }
}

fn vector(series: Vec<Series>) -> Vector {
    Vector::hourly(series.first().map_or(0, |s| s.row.len()), series)
}

fn query(op: Operator) -> Query {
    Query {
        op,
        matching: Matching::None,
        join: Join::OneToOne,
        keep_names: false,
        bool_flag: false,
        matching_list: vec![],
        join_list: vec![],
        allowance: ALLOWANCE,
    }
}

fn called(q: &Query, left: Vec<Series>, right: Vec<Series>) -> Outcome {
    let (left_labels, left) = vector(left).parts();
    let (right_labels, right) = vector(right).parts();
    let room = Room { labels: 65_535, readings: 8_192 };
    call(&Call { query: q.bytes(), left_labels, left, right_labels, right, room })
}

fn rows(outcome: Outcome) -> Vec<Vec<u64>> {
    let a = outcome.expect("an answer");
    a.readings.chunks(a.points).map(<[u64]>::to_vec).collect()
}

const NAN: f64 = f64::NAN;

#[test]
fn merging() {
    let merged = |d: &[f64], s: &[f64]| {
        let mut d = row(d);
        (merge(&mut d, &row(s), ALLOWANCE), d)
    };
    assert_eq!(merged(&[1., NAN, 3., NAN], &[NAN, 2., NAN, 4.]), (Merged::Done, row(&[1., 2., 3., 4.])));
    assert_eq!(merged(&[1., 2., 3.], &[9., 8., NAN]), (Merged::Done, row(&[9., 8., 3.])));
    assert_eq!(merged(&[1., 2., 3.], &[9., 8., 7.]), (Merged::Overlapping, row(&[1., 2., 3.])));
    assert_eq!(merged(&[1., NAN], &[NAN, 2.]).0, Merged::Overlapping);
    assert_eq!(merged(&[1., NAN, NAN], &[NAN, 2., NAN]), (Merged::Done, row(&[1., 2., NAN])));
    assert_eq!(merged(&[1.], &[NAN, 2.]).0, Merged::Unequal);
}

#[test]
fn one_to_one_keeps_the_last() {
    let left = vec![
        series("u", &[("a", "x")], &[1., NAN, NAN]),
        series("v", &[("a", "x")], &[NAN, 2., NAN]),
        series("w", &[("a", "x")], &[NAN, NAN, 3.]),
    ];
    let right = vec![series("", &[("a", "x")], &[0., 0., 0.])];
    let mut q = query(Operator::Add);
    q.keep_names = true;
    let a = called(&q, left, right).expect("an answer");
    assert_eq!((a.readings, a.labels), (row(&[1., 2., 3.]), series("w", &[("a", "x")], &[]).labels.record()));
}

#[test]
fn unless() {
    let tag = [("a", "x")];
    let q = query(Operator::Unless);
    assert_eq!(rows(called(&q, vec![series("", &tag, &[1., 2.])], vec![series("", &tag, &[NAN, 5.])])), [row(&[1., NAN])]);
    assert!(rows(called(&q, vec![series("", &tag, &[1., NAN])], vec![series("", &tag, &[4., NAN])])).is_empty());
    assert_eq!(rows(called(&q, vec![series("", &tag, &[NAN, NAN])], vec![series("", &[], &[4., 4.])])), [row(&[NAN, NAN])]);
}

#[test]
fn comparisons_with_a_missing_reading() {
    use Operator::*;
    let (three, payload) = (3f64.to_bits(), 0xfff0_0000_0000_0001);
    // 01's pair; the second is N by 02.
    assert_eq!(combine(Eql, true, N, three), N);
    assert_eq!(combine(NotEq, true, three, N), N);
    for op in [Eql, NotEq, Gt, Gte, Lt, Lte] {
        for bool_flag in [false, true] {
            for left in [three, N, payload] {
                assert_eq!(combine(op, bool_flag, left, payload), N);
            }
            let passes = op == NotEq && !bool_flag;
            assert_eq!(combine(op, bool_flag, payload, three), if passes { payload } else { N });
        }
    }
}

#[test]
fn fallback() {
    let sides = || (vec![series("", &[("press", "A")], &[NAN, 2.])], vec![series("", &[], &[7., 7.])]);
    let (l, r) = sides();
    assert_eq!(rows(called(&query(Operator::Default), l, r)), [row(&[7., 2.])]);
    let (l, r) = sides();
    assert_eq!(rows(called(&query(Operator::Or), l, r)).len(), 2);
}

#[test]
fn two_forms_share_a_waste_rate() {
    let left = vec![series("", &[("form", "1"), ("press", "A")], &[1.]), series("", &[("form", "2"), ("press", "A")], &[2.])];
    let right = vec![series("", &[("press", "A")], &[10.])];
    let q =
        Query { matching: Matching::On, matching_list: vec![b"press".to_vec()], join: Join::GroupLeft, ..query(Operator::Mul) };
    assert_eq!(rows(called(&q, left, right)), [row(&[10.]), row(&[20.])]);
}

#[test]
fn printed_quotient() {
    let left = vec![series("fed", &[("press", "A")], &[10., NAN, 6.])];
    let right = vec![series("waste", &[("press", "A")], &[2., 1., 3.])];
    let (left_labels, left) = vector(left).parts();
    let (right_labels, right) = vector(right).parts();
    let c = Call {
        query: query(Operator::Div).bytes(),
        left_labels,
        left,
        right_labels,
        right,
        room: Room { labels: 0, readings: 0 },
    };
    let text = "answer 1 3 0 3600000\n{press=\"A\"} 4014000000000000 7ff8000000000000 4000000000000000\n";
    assert_eq!(String::from_utf8(vecop(&frame(&c))).expect("text"), text);
}

#[test]
fn limits() {
    let tags = |n: usize| -> Vec<Tag> { (0..n).map(|i| Tag { key: vec![i as u8 + 1], value: vec![] }).collect() };
    let part = |n: usize, p: usize, t: usize| {
        let s = Series { labels: Labels { name: vec![], tags: tags(t) }, row: vec![N; p] };
        Vector::hourly(p, vec![s; n]).parts()
    };
    for (n, p, t) in [(512, 1, 1), (1, 1024, 1), (1, 1, 32)] {
        let (labels, readings) = part(n, p, t);
        assert!(take_vector(0, &labels, &readings).is_ok());
    }
    for (n, p, t) in [(513, 1, 1), (1, 1025, 1), (1, 1, 33)] {
        let (labels, readings) = part(n, p, t);
        assert_eq!(take_vector(0, &labels, &readings).expect_err("a refusal").number, 3);
    }
}

fn on(start: u64, step: u32, points: usize, series: Vec<Series>) -> Vector {
    Vector { points, grid: Grid { start, step }, series }
}

fn called_on(left: &Vector, right: &Vector) -> Outcome {
    let ((left_labels, left), (right_labels, right)) = (left.parts(), right.parts());
    let room = Room { labels: 65_535, readings: 8_192 };
    call(&Call { query: query(Operator::Add).bytes(), left_labels, left, right_labels, right, room })
}

#[test]
fn grids_in_range_are_carried() {
    let one = || vec![series("", &[], &[1.])];
    for (start, step) in [(0, 1), (0, MAX_STEP), (MAX_START, 1), (MAX_START, MAX_STEP)] {
        for side in [on(start, step, 1, one()), on(start, step, 1, vec![]), on(start, step, 0, vec![])] {
            assert_eq!(called_on(&side, &side).expect("an answer").grid, Grid { start, step });
        }
    }
    assert_eq!(Grid { start: 5, step: 10 }.times(3), [5, 15, 25]);
}

#[test]
fn grids_out_of_range() {
    for (start, step) in [(MAX_START + 1, 1), (u64::MAX, 1), (0, 0), (0, MAX_STEP + 1), (0, u32::MAX)] {
        let (good, bad) = (on(0, 1, 0, vec![]), on(start, step, 0, vec![]));
        assert_eq!(called_on(&bad, &good), Err(Refusal::new(11, 0, 0)));
        assert_eq!(called_on(&good, &bad), Err(Refusal::new(11, 1, 0)));
        // 3 by the limits and by a cut comes before it, 3 by the array's length after it.
        assert_eq!(called_on(&good, &on(start, step, 1025, vec![])), Err(Refusal::new(3, 1, 0)));
        let (labels, _) = bad.parts();
        assert_eq!(take_vector(0, &labels[..SIZES - 1], &[]), Err(Refusal::new(3, 0, 0)));
        assert_eq!(take_vector(0, &[&labels[..], &[0]].concat(), &[]), Err(Refusal::new(11, 0, 0)));
    }
}

#[test]
fn grids_that_differ() {
    let twice = || vec![series("", &[], &[1.]), series("", &[], &[1.])];
    let good = on(7, 5, 1, twice());
    assert_eq!(called_on(&good, &good), Err(Refusal::new(7, 1, 0)));
    for (start, step) in [(8, 5), (7, 6), (5, 7)] {
        assert_eq!(called_on(&good, &on(start, step, 1, twice())), Err(Refusal::new(12, 0, 0)));
        assert_eq!(called_on(&on(start, step, 0, vec![]), &on(7, 5, 0, vec![])), Err(Refusal::new(12, 0, 0)));
        assert_eq!(called_on(&good, &on(start, step, 0, vec![])), Err(Refusal::new(6, 0, 0)));
    }
}

fn refused(number: u64) -> Result<Query, Refusal> {
    Err(Refusal::new(number, 0, 0))
}

#[test]
fn allowances_are_taken() {
    let good = Query {
        matching: Matching::On,
        matching_list: vec![b"a".to_vec()],
        join: Join::GroupLeft,
        join_list: vec![b"b".to_vec()],
        ..query(Operator::Add)
    };
    for allowance in 0..=255 {
        let asked = Query { allowance, ..good.clone() };
        let taken = take_query(&asked.bytes());
        assert_eq!(taken, if allowance <= 8 { Ok(asked.clone()) } else { refused(13) });
        // Bytes behind it, a list under matching 0, a list cut, and a refused operator come before 13.
        assert_eq!(take_query(&[&asked.bytes()[..], &[0]].concat()), refused(2));
        assert_eq!(take_query(&Query { matching: Matching::None, ..asked.clone() }.bytes()), refused(2));
        assert_eq!(take_query(&Query { op: Operator::Pow, ..asked }.bytes()), refused(1));
        assert_eq!(take_query(&[0, 1, 0, 0, 1, 1, allowance as u8]), refused(2));
    }
    let bytes = good.bytes();
    assert_eq!(take_query(&bytes[..bytes.len() - 1]), refused(2));
    // 13 before a vector's faults.
    let bad = Query { allowance: 9, ..good };
    let none = || (vec![], vec![]);
    let ((left_labels, left), (right_labels, right)) = (none(), none());
    let room = Room { labels: 0, readings: 0 };
    let c = Call { query: bad.bytes(), left_labels, left, right_labels, right, room };
    assert_eq!(call(&c), Err(Refusal::new(13, 0, 0)));
}

#[test]
fn merging_under_each_allowance() {
    let ones = |n: usize, p: usize| row(&[&vec![1.; n][..], &vec![NAN; p - n]].concat());
    for allowance in 0..=8 {
        for p in [0, 1, 2, 3, 9, 64, 1100] {
            for overlaps in 0..=p.min(10) {
                let mut d = row(&vec![2.; p]);
                let merged = merge(&mut d, &ones(overlaps, p), allowance);
                if p > 2 && overlaps <= allowance {
                    assert_eq!((merged, d[..overlaps].to_vec()), (Merged::Done, row(&vec![1.; overlaps])));
                } else {
                    assert_eq!((merged, d), (Merged::Overlapping, row(&vec![2.; p])));
                }
            }
        }
        assert_eq!(merge(&mut ones(1, 3), &ones(1, 4), allowance), Merged::Unequal);
    }
    for allowance in [9, 255] {
        assert_eq!(merge(&mut ones(0, 3), &ones(0, 3), allowance), Merged::TooMuchAllowed);
        assert_eq!(merge(&mut ones(1, 3), &ones(1, 4), allowance), Merged::TooMuchAllowed);
    }
}

/// Three series of a key on one side. The second merge of a call overlaps the first's readings at as many places as the allowance
/// has, or at one more; the first merge overlaps at as many as it has. They are never added up.
#[test]
fn the_allowance_is_each_merge_s() {
    let kept = [1., 1., 1., 1., NAN, NAN, NAN, NAN];
    let first = [2., 2., 2., NAN, 2., 2., 2., 2.];
    let (at, above) = ([NAN, NAN, NAN, NAN, NAN, 3., 3., 3.], [NAN, NAN, NAN, NAN, 3., 3., 3., 3.]);
    let side = |row: &[f64]| series("", &[], row);
    let one = || vec![side(&[0.; 8])];
    for (join, left) in [(Join::OneToOne, true), (Join::OneToOne, false), (Join::GroupLeft, false), (Join::GroupRight, true)] {
        let q = Query { join, allowance: 3, ..query(Operator::Add) };
        let ran = |q: &Query, second: &[f64]| {
            // One-to-one merges into the last, a join into the first.
            let all = match join {
                Join::OneToOne => vec![side(&first), side(second), side(&kept)],
                _ => vec![side(&kept), side(&first), side(second)],
            };
            if left {
                called(q, all, one())
            } else {
                called(q, one(), all)
            }
        };
        assert_eq!(rows(ran(&q, &at)), [row(&[2., 2., 2., 1., 2., 3., 3., 3.])]);
        let (kept, failed) = if join == Join::OneToOne { (2, 1) } else { (0, 2) };
        assert_eq!(ran(&q, &above), Err(Refusal::new(if left { 7 } else { 8 }, kept, failed)));
        assert!(ran(&Query { op: Operator::Or, allowance: 0, ..q }, &above).is_ok());
    }
}
