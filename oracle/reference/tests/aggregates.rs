//! 02's "Totals by press": each sentence, and what a wrong program would take it for, by small examples worked by hand.
use reference::*;

const N: u64 = MISSING;
const NAN: f64 = f64::NAN;
const INF: f64 = f64::INFINITY;
/// A missing reading that no rule writes.
const ODD: u64 = 0xfff0_0000_0000_0007;

fn row(values: &[f64]) -> Vec<u64> {
    values.iter().map(|v| if v.is_nan() { N } else { v.to_bits() }).collect()
}

fn labels(name: &str, tags: &[(&str, &str)]) -> Labels {
    let tags = tags.iter().map(|(k, v)| Tag { key: k.as_bytes().to_vec(), value: v.as_bytes().to_vec() }).collect();
    Labels { name: name.as_bytes().to_vec(), tags }
}

fn series(name: &str, tags: &[(&str, &str)], values: &[f64]) -> Series {
    Series { labels: labels(name, tags), row: row(values) }
}

fn request(aggregate: Aggregate, grouping: Grouping, list: &[&str]) -> Request {
    Request { aggregate, grouping, list: list.iter().map(|l| l.as_bytes().to_vec()).collect() }
}

fn vector(series: Vec<Series>) -> Vector {
    Vector::hourly(series.first().map_or(0, |s| s.row.len()), series)
}

const ROOM: Room = Room { labels: 65_535, readings: 8_192 };

fn called(request: &Request, vector: &Vector) -> Outcome {
    let (labels, readings) = vector.parts();
    aggregate(&AggregateCall { request: request.bytes(), labels, readings, room: ROOM })
}

/// The answer as the vector that it is.
fn answered(request: &Request, series: Vec<Series>) -> Vec<Series> {
    let a = called(request, &vector(series)).expect("an answer");
    let sizes = [a.series, a.points, a.labels.len()].map(|size| (size as u16).to_le_bytes()).concat();
    let part = [&sizes[..], &a.grid.start.to_le_bytes(), &a.grid.step.to_le_bytes(), &a.labels].concat();
    take_vector(0, &part, &a.readings).expect("a vector").series
}

/// The one total of rows without labels.
fn total(aggregate: Aggregate, rows: &[&[f64]]) -> Vec<u64> {
    let all = rows.iter().map(|row| series("", &[], row)).collect();
    match answered(&request(aggregate, Grouping::By, &[]), all).as_slice() {
        [only] => only.row.clone(),
        other => panic!("{} totals", other.len()),
    }
}

/// The five aggregates of one point, in the order of their bytes.
fn five(readings: &[f64]) -> [u64; 5] {
    let rows: Vec<&[f64]> = readings.chunks(1).collect();
    Aggregate::ALL.map(|aggregate| total(aggregate, &rows)[0])
}

#[test]
fn five_aggregates() {
    assert_eq!(five(&[3., 1., 8., 2.]).to_vec(), row(&[14., 1., 8., 4., 3.5]));
    assert_eq!(five(&[-7.]).to_vec(), row(&[-7., -7., -7., 1., -7.]));
}

#[test]
fn missing_readings_are_skipped_and_a_point_with_none_is_missing() {
    assert_eq!(five(&[NAN, 3., NAN, 1.]).to_vec(), row(&[4., 1., 3., 2., 2.]));
    // Count too is missing where nothing is, not 0.
    assert_eq!(five(&[NAN, NAN]), [N; 5]);
    let odd = Series { labels: labels("", &[]), row: vec![ODD, ODD] };
    for aggregate in Aggregate::ALL {
        let all = vec![odd.clone(), series("", &[], &[NAN, 5.])];
        let made = answered(&request(aggregate, Grouping::By, &[]), all);
        // The rule writes its own missing reading, whatever was there.
        let five = if aggregate == Aggregate::Count { 1f64 } else { 5. };
        assert_eq!(made[0].row, [N, five.to_bits()]);
    }
}

#[test]
fn the_sum_starts_at_the_first_present_reading() {
    // A sum begun at +0 would give +0.
    assert_eq!(total(Aggregate::Sum, &[&[-0.0]]), row(&[-0.0]));
    assert_eq!(total(Aggregate::Sum, &[&[NAN], &[-0.0], &[-0.0]]), row(&[-0.0]));
    assert_eq!(total(Aggregate::Sum, &[&[-0.0], &[0.0]]), row(&[0.0]));
    assert_eq!(total(Aggregate::Avg, &[&[-0.0], &[-0.0]]), row(&[-0.0]));
}

#[test]
fn the_sum_adds_in_input_order_and_rounds_at_each_addition() {
    let big = (1u64 << 53) as f64;
    // 2^53 + 1 rounds to 2^53 twice over; 1 + 1 first makes 2.
    assert_eq!(total(Aggregate::Sum, &[&[big], &[1.], &[1.]]), row(&[big]));
    assert_eq!(total(Aggregate::Sum, &[&[1.], &[1.], &[big]]), row(&[big + 2.]));
    assert_eq!(total(Aggregate::Sum, &[&[f64::MAX], &[f64::MAX], &[-f64::MAX]]), row(&[INF]));
    assert_eq!(total(Aggregate::Sum, &[&[f64::MAX], &[-f64::MAX], &[f64::MAX]]), row(&[f64::MAX]));
}

#[test]
fn a_sum_that_becomes_missing_stays_so() {
    // Only the sum, and the mean with it: min, max and count go on. A missing sum is not "nothing yet".
    assert_eq!(five(&[INF, -INF]), [N, (-INF).to_bits(), INF.to_bits(), 2f64.to_bits(), N]);
    assert_eq!(five(&[-INF, INF, 5.]), [N, (-INF).to_bits(), INF.to_bits(), 3f64.to_bits(), N]);
    assert_eq!(five(&[5., INF, NAN, -INF, 7.]), [N, (-INF).to_bits(), INF.to_bits(), 4f64.to_bits(), N]);
    assert_eq!(five(&[INF, 1.]).to_vec(), row(&[INF, 1., INF, 2., INF]));
}

#[test]
fn avg_is_the_final_sum_divided_once() {
    // The sum of two of the largest overflows, though their mean would not.
    assert_eq!(total(Aggregate::Avg, &[&[f64::MAX], &[f64::MAX]]), row(&[INF]));
    assert_eq!(total(Aggregate::Avg, &[&[1.], &[2.], &[4.]]), row(&[7. / 3.]));
    // Each divided by 3 and then added, they round otherwise.
    assert_eq!(total(Aggregate::Avg, &[&[0.1], &[0.2], &[0.3]]), row(&[(0.1 + 0.2 + 0.3) / 3.]));
    assert_ne!((0.1 + 0.2 + 0.3) / 3., 0.1 / 3. + 0.2 / 3. + 0.3 / 3.);
    // By the number of present readings, not of series.
    assert_eq!(total(Aggregate::Avg, &[&[6.], &[NAN], &[2.]]), row(&[4.]));
}

#[test]
fn min_and_max_change_on_strictly_smaller_or_larger_alone() {
    for aggregate in [Aggregate::Min, Aggregate::Max] {
        assert_eq!(total(aggregate, &[&[0.0], &[-0.0]]), row(&[0.0]));
        assert_eq!(total(aggregate, &[&[-0.0], &[0.0]]), row(&[-0.0]));
        assert_eq!(total(aggregate, &[&[NAN], &[-0.0], &[NAN], &[0.0]]), row(&[-0.0]));
    }
    assert_eq!(total(Aggregate::Min, &[&[0.0], &[-1.], &[1.]]), row(&[-1.]));
    assert_eq!(total(Aggregate::Max, &[&[0.0], &[-1.], &[1.]]), row(&[1.]));
    assert_eq!(total(Aggregate::Min, &[&[INF], &[f64::MAX]]), row(&[f64::MAX]));
    assert_eq!(total(Aggregate::Max, &[&[-INF], &[NAN]]), row(&[-INF]));
}

#[test]
fn labels_are_edited_as_remove_group_tags_edits_them() {
    let from = labels("fed", &[("*", "s"), ("form", "1"), ("press", "A")]);
    let edited = |grouping, list: &[&str]| from.edited_total(&request(Aggregate::Sum, grouping, list));
    use Grouping::{By, Without};
    assert_eq!(edited(By, &[]), labels("", &[]));
    assert_eq!(edited(By, &["press"]), labels("", &[("press", "A")]));
    assert_eq!(edited(By, &["__name__"]), labels("fed", &[]));
    assert_eq!(edited(By, &["press", "__name__", "press", "z"]), labels("fed", &[("press", "A")]));
    // `*` is an ordinary label.
    assert_eq!(edited(By, &["*"]), labels("", &[("*", "s")]));
    assert_eq!(edited(Without, &["*"]), labels("", &[("form", "1"), ("press", "A")]));
    // `without` always takes the name.
    assert_eq!(edited(Without, &[]), labels("", &[("*", "s"), ("form", "1"), ("press", "A")]));
    assert_eq!(edited(Without, &["form", "form", "z"]), labels("", &[("*", "s"), ("press", "A")]));
    assert_eq!(edited(Without, &["__name__", "press"]), labels("", &[("*", "s"), ("form", "1")]));
}

#[test]
fn equal_edited_labels_name_included_form_one_total() {
    let all = || {
        vec![
            series("fed", &[("press", "B"), ("stock", "x")], &[1.]),
            series("waste", &[("press", "A")], &[2.]),
            series("fed", &[("press", "A"), ("stock", "x")], &[4.]),
            series("fed", &[("press", "B")], &[8.]),
            series("waste", &[("press", "B")], &[16.]),
        ]
    };
    let summed = |grouping, list: &[&str]| answered(&request(Aggregate::Sum, grouping, list), all());
    // In order of first place.
    let by_press = [series("", &[("press", "B")], &[25.]), series("", &[("press", "A")], &[6.])];
    assert_eq!(summed(Grouping::By, &["press"]), by_press);
    assert_eq!(summed(Grouping::Without, &["stock"]), by_press);
    let by_name = [series("fed", &[], &[13.]), series("waste", &[], &[18.])];
    assert_eq!(summed(Grouping::By, &["__name__"]), by_name);
    let by_both = [
        series("fed", &[("press", "B")], &[9.]),
        series("waste", &[("press", "A")], &[2.]),
        series("fed", &[("press", "A")], &[4.]),
        series("waste", &[("press", "B")], &[16.]),
    ];
    assert_eq!(summed(Grouping::By, &["press", "__name__"]), by_both);
    assert_eq!(summed(Grouping::By, &[]), [series("", &[], &[31.])]);
    // A tag with an empty value is there, and unlike none.
    let empty = vec![series("", &[("stock", "")], &[1.]), series("", &[], &[2.])];
    assert_eq!(answered(&request(Aggregate::Sum, Grouping::By, &["stock"]), empty.clone()), empty);
}

#[test]
fn totals_of_missing_readings_and_rows_without_points_stay() {
    let all = vec![series("", &[("a", "1")], &[NAN, NAN]), series("", &[("a", "2")], &[NAN, 1.])];
    for aggregate in Aggregate::ALL {
        let request = request(aggregate, Grouping::By, &["a"]);
        assert_eq!(answered(&request, all.clone()), all);
        let bare = vec![series("m", &[("a", "1")], &[]), series("m", &[("a", "2")], &[]), series("n", &[("a", "1")], &[])];
        assert_eq!(answered(&request, bare), [series("", &[("a", "1")], &[]), series("", &[("a", "2")], &[])]);
        assert!(answered(&request, vec![]).is_empty());
    }
}

#[test]
fn the_answer_has_the_vector_s_grid() {
    for (start, step) in [(0, 1), (MAX_START, MAX_STEP)] {
        for (points, series) in [(0, vec![]), (3, vec![]), (1, vec![series("", &[], &[1.])])] {
            let v = Vector { points, grid: Grid { start, step }, series };
            let a = called(&request(Aggregate::Count, Grouping::By, &[]), &v).expect("an answer");
            assert_eq!((a.series, a.points, a.grid), (v.series.len(), points, v.grid));
        }
    }
}

#[test]
fn requests_are_taken() {
    let good = request(Aggregate::Avg, Grouping::Without, &["press", "__name__", "*"]);
    assert_eq!(take_request(&good.bytes()), Ok(good.clone()));
    assert_eq!(good.bytes(), b"\x04\x01\x03\x05press\x08__name__\x01*");
    let refused = |number| Err(Refusal::new(number, 0, 0));
    assert_eq!(take_request(&[]), refused(2));
    for first in 0..=255 {
        // 14 is tested first: the rest may be cut or wrong.
        let number = if first > 4 { 14 } else { 2 };
        for rest in [&b""[..], b"\0", b"\x02\0", b"\0\0\0", b"\0\x21", b"\0\x01", b"\0\x01\0", b"\0\x01\x02a", b"\x01\x01\x01ab"]
        {
            assert_eq!(take_request(&[&[first], rest].concat()), refused(number));
        }
        assert_eq!(take_request(&[first, 0, 0]).is_ok(), first <= 4);
    }
    for grouping in 2..=255 {
        assert_eq!(take_request(&[0, grouping, 0]), refused(2));
    }
    for cut in 1..good.bytes().len() {
        assert_eq!(take_request(&good.bytes()[..cut]), refused(2));
    }
    assert_eq!(take_request(&[&good.bytes()[..], &[0]].concat()), refused(2));
    let listing = |n: usize| request(Aggregate::Sum, Grouping::By, &vec!["a"; n]);
    assert_eq!(take_request(&listing(32).bytes()), Ok(listing(32)));
    assert_eq!(take_request(&listing(33).bytes()), refused(2));
}

#[test]
fn faults_of_the_vector_are_named_with_side_0() {
    let one = vector(vec![series("", &[("a", "x")], &[1.]), series("", &[("b", "x")], &[1.])]);
    let (labels, readings) = one.parts();
    let run = |request: &[u8], labels: &[u8], readings: &[u64], room| {
        aggregate(&AggregateCall { request: request.to_vec(), labels: labels.to_vec(), readings: readings.to_vec(), room })
    };
    let sum = |labels: &[u8], readings: &[u64]| run(&[0, 0, 0], labels, readings, ROOM);
    let refused = |number, second| Err(Refusal::new(number, 0, second));
    let changed = |at: usize, byte: u8| {
        let mut labels = labels.clone();
        labels[at] = byte;
        labels
    };
    assert_eq!(sum(&labels[..17], &readings), refused(3, 0));
    assert_eq!(sum(&[&labels[..14], &[0; 4], &labels[18..]].concat(), &readings), refused(11, 0));
    assert_eq!(sum(&[&labels[..], &[0]].concat(), &readings), refused(3, 0));
    // The second record's key: out of bounds, and empty.
    assert_eq!(sum(&changed(26, 9), &readings), refused(3, 1));
    let keyless = [&labels[..18], &labels[18..24], &[0, 1, 0, 2, b'x', b'x']].concat();
    assert_eq!(sum(&keyless, &readings), refused(4, 1));
    assert_eq!(sum(&changed(0, 1), &readings[..1]), refused(3, 1));
    assert_eq!(sum(&labels, &readings[..1]), refused(5, 0));
    // The request's faults come before, and 10 after.
    assert_eq!(run(&[5], &labels[..17], &[], ROOM), refused(14, 0));
    assert_eq!(run(&[0, 0], &labels[..17], &[], ROOM), refused(2, 0));
    let by = b"\0\0\x02\x01a\x01b";
    let exact = Room { labels: 12, readings: 2 };
    assert_eq!(run(by, &labels, &readings, exact).expect("an answer").labels, labels[18..]);
    for short in [Room { labels: 11, ..exact }, Room { readings: 1, ..exact }] {
        assert_eq!(run(by, &labels, &readings, short), refused(10, 0));
        assert_eq!(run(by, &labels, &readings[..1], short), refused(5, 0));
    }
}

/// "Where the whole request answers, dealing its vector by edited label gives merged answers": press B in one pile, A and C in
/// the other, and the piles' rows in the order of their first whole places.
#[test]
fn dealing_by_edited_label_gives_merged_answers() {
    let fed = |press: &str, value: f64| series("fed", &[("press", press)], &[value]);
    let whole = [fed("A", 0.1), fed("B", 1.), fed("C", 7.), fed("B", NAN), fed("A", 0.2), fed("B", -3.), fed("A", 0.3)];
    let pile = |presses: &[&str]| {
        let of = |s: &&Series| presses.iter().any(|p| s.labels.tags[0].value == p.as_bytes());
        whole.iter().filter(of).cloned().collect::<Vec<_>>()
    };
    for aggregate in Aggregate::ALL {
        let by = request(aggregate, Grouping::By, &["press"]);
        let all = answered(&by, whole.to_vec());
        let (first, second) = (answered(&by, pile(&["B"])), answered(&by, pile(&["A", "C"])));
        assert_eq!((first.len(), second.len()), (1, 2));
        assert_eq!(all, [second[0].clone(), first[0].clone(), second[1].clone()]);
    }
}

/// At the limits the answer is within them: 9 has nothing to refuse.
#[test]
fn the_answer_of_the_largest_vector() {
    let tag = |i: usize| Tag { key: format!("{i:02}").into_bytes(), value: vec![] };
    let named = |i: usize| Labels { name: format!("{i:03}").into_bytes(), tags: (0..20).map(tag).collect() };
    let all = (0..512).map(|i| Series { labels: named(i), row: row(&[i as f64]) }).collect();
    let kept: Vec<String> = (0..20).map(|i| format!("{i:02}")).chain(["__name__".to_string()]).collect();
    let kept: Vec<&str> = kept.iter().map(String::as_str).collect();
    let all = vector(all);
    let a = called(&request(Aggregate::Max, Grouping::By, &kept), &all).expect("an answer");
    assert_eq!((a.labels, a.readings), (all.parts().0[SIZES..].to_vec(), all.parts().1));
    let a = called(&request(Aggregate::Count, Grouping::Without, &[]), &all).expect("an answer");
    assert_eq!((a.series, a.readings), (1, row(&[512.])));
}
