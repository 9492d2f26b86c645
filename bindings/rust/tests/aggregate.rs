//! Aggregates over one vector: each by its number, both groupings, and what is refused.
use nosingcatnip::{exec_aggregate, Answer, Refusal, Side, Vector};

const NAN: f64 = f64::NAN;

/// Three series, two of press A, an hour apart.
fn fed() -> Vector {
    let mut fed = Vector::new(3, 7, 3_600_000);
    fed.push("fed", &[("form", "1"), ("press", "A")], &[1.0, NAN, NAN]).unwrap();
    fed.push("fed", &[("press", "B")], &[2.0, 3.0, NAN]).unwrap();
    fed.push("waste", &[("press", "A")], &[0.5, -4.0, NAN]).unwrap();
    fed
}

/// The names, tags and rows of an answer.
type Written = Vec<(String, Vec<(String, String)>, Vec<f64>)>;

fn answered(request: &[u8]) -> Written {
    let text = |bytes: &[u8]| String::from_utf8(bytes.to_vec()).unwrap();
    let (mut labels, mut readings) = ([0; 64], [0; 16]);
    let answer = exec_aggregate(request, fed().side(), &mut labels, &mut readings).unwrap();
    assert_eq!((answer.points, answer.start, answer.step), (3, 7, 3_600_000));
    let series = answer.read(&labels, &readings);
    series.map(|s| (text(s.name), s.tags.iter().map(|t| (text(t.0), text(t.1))).collect(), s.row)).collect()
}

/// A row with missing readings as none.
fn present(row: &[f64]) -> Vec<Option<f64>> {
    row.iter().map(|reading| Some(*reading).filter(|r| !r.is_nan())).collect()
}

#[test]
fn each_aggregate_by_its_number() {
    let of_a = [[1.5, -4.0], [0.5, -4.0], [1.0, -4.0], [2.0, 1.0], [0.75, -4.0]];
    for (aggregate, [first, second]) in (0..).zip(of_a) {
        let totals = answered(&[&[aggregate, 0, 1, 5], &b"press"[..]].concat());
        assert_eq!(totals.len(), 2);
        let press = |value: &str| vec![("press".to_string(), value.to_string())];
        assert_eq!((&totals[0].0[..], &totals[0].1), ("", &press("A")));
        assert_eq!((&totals[1].0[..], &totals[1].1), ("", &press("B")));
        assert_eq!(present(&totals[0].2), [Some(first), Some(second), None]);
    }
}

#[test]
fn by_and_without() {
    let names = answered(b"\x00\x00\x01\x08__name__");
    assert_eq!(names.iter().map(|total| &total.0[..]).collect::<Vec<_>>(), ["fed", "waste"]);
    assert_eq!(present(&names[0].2), [Some(3.0), Some(3.0), None]);
    let without = answered(b"\x00\x01\x01\x04form");
    assert_eq!(without.iter().map(|total| present(&total.2)[0]).collect::<Vec<_>>(), [Some(1.5), Some(2.0)]);
    assert_eq!(answered(&[0, 0, 0]).len(), 1);
    assert_eq!(answered(&[0, 1, 0]).len(), 3);
}

#[test]
fn a_refusal_changes_nothing_and_an_answer_nothing_behind_it() {
    let fed = fed();
    let call = |request: &[u8], vector: Side, label_bytes: usize, room: usize| {
        let (mut labels, mut readings) = (vec![170; label_bytes], vec![9; room]);
        let given = exec_aggregate(request, vector, &mut labels, &mut readings);
        let (answered, written) = given.map_or((0, 0), |a| (a.label_bytes, a.series * a.points));
        assert!(labels[answered..].iter().all(|byte| *byte == 170));
        assert!(readings[written..].iter().all(|reading| *reading == 9));
        given
    };
    let refused = |number| Err(Refusal { number, fields: [0, 0] });
    let count = [3, 0, 0];
    let one = Answer { series: 1, points: 3, start: 7, step: 3_600_000, label_bytes: 2 };
    assert_eq!(call(&count, fed.side(), 2, 3), Ok(one));
    assert_eq!(call(&count, fed.side(), 20, 30), Ok(one));
    assert_eq!(call(&count, fed.side(), 1, 30), refused(10));
    assert_eq!(call(&count, fed.side(), 20, 2), refused(10));
    let cut = Side { labels: &fed.side().labels[..17], ..fed.side() };
    for aggregate in 5..=255 {
        assert_eq!(call(&[aggregate], cut, 20, 30), refused(14));
    }
    for request in [&[][..], &[0], &[4, 2, 0], &[0, 0, 33], &[0, 0, 1], &[0, 0, 1, 0], &[0, 0, 0, 0]] {
        assert_eq!(call(request, cut, 20, 30), refused(2));
    }
    assert_eq!(call(&count, cut, 20, 30), refused(3));
    assert_eq!(call(&count, Vector::new(0, 0, 0).side(), 20, 30), refused(11));
    assert_eq!(call(&count, Side { readings: &[0; 8], ..fed.side() }, 20, 30), refused(5));
}
