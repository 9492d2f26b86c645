//! The text of a vector: its lines, what is refused, and what a call leaves in the part that is lent for it.
use nosingcatnip::{export_text, Refusal, Side, Vector};

const NAN: f64 = f64::NAN;
const LARGE: f64 = (1u64 << 40) as f64;

/// A series as a test writes it.
type Written<'a> = (&'a str, &'a [(&'a str, &'a str)], [f64; 3]);

/// Three points, two milliseconds apart, the first at 7.
fn vector(series: &[Written]) -> Vector {
    let mut vector = Vector::new(3, 7, 2);
    for (name, tags, row) in series {
        vector.push(*name, tags, row).unwrap();
    }
    vector
}

/// The text, with a part of such a length lent for it; what lies behind the text, and all under a refusal, is as it was.
fn exported(side: Side, room: usize) -> Result<String, Refusal> {
    let mut out = vec![170; room];
    let given = export_text(side, &mut out);
    let behind = given.unwrap_or(0);
    assert!(out[behind..].iter().all(|byte| *byte == 170));
    given.map(|length| String::from_utf8(out[..length].to_vec()).unwrap())
}

#[test]
fn each_present_reading_is_a_line() {
    let fed = vector(&[
        ("fed", &[("press", "A"), ("form", "1")], [1000.0, NAN, 0.0625]),
        ("idle", &[], [NAN; 3]),
        ("a:rate", &[], [-0.0, -0.0625, LARGE - 0.5]),
        ("x", &[("k", "a\\b\"c\nd é"), ("l", "")], [NAN, -1e-9, NAN]),
    ]);
    let text = [
        "fed{form=\"1\",press=\"A\"} 1000.000 7\n",
        "fed{form=\"1\",press=\"A\"} 0.063 11\n",
        "a:rate 0.000 7\n",
        "a:rate -0.063 9\n",
        "a:rate 1099511627775.500 11\n",
        "x{k=\"a\\\\b\\\"c\\nd é\",l=\"\"} 0.000 9\n",
    ]
    .concat();
    for room in [text.len(), text.len() + 1, 4096] {
        assert_eq!(exported(fed.side(), room).as_deref(), Ok(&text[..]));
    }
    for room in [0, 1, text.len() - 1] {
        assert_eq!(exported(fed.side(), room), Err(Refusal { number: 10, fields: [0, 0] }));
    }
}

#[test]
fn no_line_is_an_empty_text() {
    for none in [vector(&[]), vector(&[("x", &[], [NAN; 3])]), Vector::new(0, 0, 1)] {
        for room in [0, 1, 9] {
            assert_eq!(exported(none.side(), room).as_deref(), Ok(""));
        }
    }
}

#[test]
fn the_first_series_at_fault_is_named() {
    let row = [1.0, NAN, 2.0];
    let faults: [(Written, u64); 6] = [
        (("", &[], row), 15),
        (("9", &[], row), 15),
        (("x", &[("a:b", "")], row), 15),
        (("x", &[], [1.0, NAN, LARGE]), 16),
        (("x", &[], [f64::NEG_INFINITY, NAN, NAN]), 16),
        (("", &[], [NAN, NAN, LARGE]), 15),
    ];
    for (faulty, number) in faults {
        for (other, _) in faults {
            let all = vector(&[("x", &[], row), faulty, other]);
            for room in [0, 4096] {
                assert_eq!(exported(all.side(), room), Err(Refusal { number, fields: [0, 1] }));
            }
        }
    }
    let mut odd = Vector::new(0, 0, 1);
    odd.push(&b"x"[..], &[(b"k", b"\xed\xa0\x80")], &[]).unwrap();
    assert_eq!(exported(odd.side(), 9), Err(Refusal { number: 15, fields: [0, 0] }));
}

#[test]
fn a_vector_s_faults_come_first() {
    let unnamed = vector(&[("", &[], [LARGE; 3])]);
    let refused = |number| Err(Refusal { number, fields: [0, 0] });
    let cut = Side { labels: &unnamed.side().labels[..17], ..unnamed.side() };
    assert_eq!(exported(cut, 64), refused(3));
    assert_eq!(exported(Side { readings: &[], ..unnamed.side() }, 64), refused(5));
    assert_eq!(exported(Vector::new(0, 0, 0).side(), 64), refused(11));
    assert_eq!(exported(vector(&[("", &[("", "")], [LARGE; 3])]).side(), 64), refused(4));
}
