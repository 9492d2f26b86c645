//! Sides that are built, answers that are read back, and refusals in words.
use nosingcatnip::{exec_aggregate, exec_binop, export_text, Answer, EncodeError, Refusal, Series, Side, Vector};

/// The operators by their numbers.
const PLUS: u8 = 0;
const ATAN2: u8 = 2;
const OR: u8 = 17;

/// A query without modifiers.
fn query(operator: u8) -> [u8; 7] {
    [operator, 0, 0, 0, 0, 0, 2]
}

/// Series as a test writes them.
type Written<'a> = (&'a str, &'a [(&'a str, &'a str)], &'a [f64]);

fn vector(points: u16, series: &[Written]) -> Vector {
    let mut vector = Vector::new(points, 0, 1);
    for (name, tags, row) in series {
        vector.push(*name, tags, row).unwrap();
    }
    vector
}

/// So many series without name, tags and points.
fn bare(series: usize) -> Vector {
    vector(0, &vec![("", &[][..], &[][..]); series])
}

#[test]
fn a_side_is_its_sizes_its_records_and_its_bits() {
    let mut built = Vector::new(2, 0x0001_0203_0405_0607, 0x0102_0304);
    assert_eq!(built.side().labels, [0, 0, 2, 0, 0, 0, 7, 6, 5, 4, 3, 2, 1, 0, 4, 3, 2, 1]);
    assert!(built.side().readings.is_empty());
    let odd = f64::from_bits(0x7ff8_0000_0000_0001);
    built.push("fed", &[("press", "A"), ("a", ""), ("form", "12")], &[-0.0, odd]).unwrap();
    built.push(&b"\xff"[..], &[(b"\xc3", b"\0")], &[1.0, 2.0]).unwrap();
    let records = b"\x03fed\x03\x01a\0\x04form\x0212\x05press\x01A\x01\xff\x01\x01\xc3\x01\0";
    assert_eq!(built.side().labels[..6], [2, 0, 2, 0, records.len() as u8, 0]);
    assert_eq!(&built.side().labels[18..], records);
    assert_eq!(built.side().readings, [1 << 63, odd.to_bits(), 1f64.to_bits(), 2f64.to_bits()]);
}

#[test]
fn keys_ascend_by_their_bytes() {
    let keys = ["b", "", "é", "ab", "Z", "a"];
    let mut built = Vector::new(0, 0, 1);
    built.push("", &keys.map(|key| (key, "v")), &[]).unwrap();
    assert_eq!(
        &built.side().labels[18..],
        "\0\x06\0\x01v\x01Z\x01v\x01a\x01v\x02ab\x01v\x01b\x01v\x02é\x01v".as_bytes()
    );
}

#[test]
fn what_cannot_be_encoded_is_told_and_changes_nothing() {
    let mut built = vector(1, &[("fed", &[("press", "A")], &[1.0])]);
    let before = built.clone();
    let (long, keys) = ("x".repeat(256), (0..256).map(|i| i.to_string()).collect::<Vec<_>>());
    let many: Vec<_> = keys.iter().map(|key| (&key[..], "")).collect();
    let cases: [(Written, EncodeError, &str); 8] = [
        (("", &[], &[]), EncodeError::RowLength { readings: 0, points: 1 }, "a row of 0 readings for 1 points"),
        (("", &[], &[1.0; 2]), EncodeError::RowLength { readings: 2, points: 1 }, "a row of 2 readings for 1 points"),
        (("", &[("a", "1"), ("b", ""), ("a", "1")], &[1.0]), EncodeError::TagTwice, "two tags with the same key"),
        (("", &[("a", "1"), ("a", "2")], &[1.0]), EncodeError::TagTwice, "two tags with the same key"),
        ((&long, &[], &[1.0]), EncodeError::LongName, "a name of over 255 bytes"),
        (("", &many, &[1.0]), EncodeError::ManyTags, "over 255 tags"),
        (("", &[(&long, "")], &[1.0]), EncodeError::LongKey, "a key of over 255 bytes"),
        (("", &[("a", &long)], &[1.0]), EncodeError::LongValue, "a value of over 255 bytes"),
    ];
    for ((name, tags, row), error, words) in cases {
        assert_eq!(built.push(name, tags, row), Err(error));
        assert_eq!(error.to_string(), words);
        assert_eq!(built.side().labels, before.side().labels);
        assert_eq!(built.side().readings, before.side().readings);
    }
    // One less of each is encoded.
    built.push(&long[1..], &[], &[1.0]).unwrap();
    built.push("", &many[1..], &[1.0]).unwrap();
    built.push("", &[(&long[1..], &long[1..])], &[1.0]).unwrap();
    assert_eq!(built.side().labels[..2], [4, 0]);
}

#[test]
fn label_bytes_run_out_at_65_535() {
    let mut built = bare(32_766);
    assert_eq!(built.push("ab", &[], &[]), Err(EncodeError::ManyLabelBytes));
    assert_eq!(EncodeError::ManyLabelBytes.to_string(), "over 65,535 label bytes");
    built.push("a", &[], &[]).unwrap();
    assert_eq!(built.push("", &[], &[]), Err(EncodeError::ManyLabelBytes));
    let sizes = [0xff, 0x7f, 0, 0, 0xff, 0xff];
    assert_eq!((&built.side().labels[..6], built.side().labels.len()), (&sizes[..], 18 + 65_535));
}

/// 512 series of 1,024 points and 32 tags, whose records have 65,535 bytes in all: 128 each, and the last 127. Half of
/// them are on the left, and `or` adds the right ones.
#[test]
fn an_answer_at_every_limit_is_read_back_and_written_again() {
    let keys: Vec<_> = (b'A'..b'A' + 32).map(|byte| char::from(byte).to_string()).collect();
    let width = |i| if i == 511 { 25 } else { 26 };
    let value = |i: u16| format!("{i:0width$}", width = width(i));
    let row = |i: u16| {
        (0..1_024).map(move |j| match (i + j) % 3 {
            0 => f64::NAN,
            _ => f64::from(i) + f64::from(j) / 1_024.0,
        })
    };
    let mut sides = [(); 2].map(|_| Vector::new(1_024, 1 << 52, 86_400_000));
    for i in 0..512 {
        let (name, value, row) = (format!("{i:4}"), value(i), Vec::from_iter(row(i)));
        let tags = keys.iter().rev().map(|key| (&key[..], if key == "A" { &value[..] } else { "" }));
        sides[usize::from(i / 256)].push(&name[..], &Vec::from_iter(tags), &row).unwrap();
    }
    let (mut labels, mut readings) = (vec![0; 65_535], vec![0; 512 * 1_024]);
    let answer = exec_binop(&query(OR), sides[0].side(), sides[1].side(), &mut labels, &mut readings).unwrap();
    assert_eq!(answer, Answer { series: 512, points: 1_024, start: 1 << 52, step: 86_400_000, label_bytes: 65_535 });
    let mut again = Vector::new(1_024, answer.start, answer.step);
    for (i, series) in (0..).zip(answer.read(&labels, &readings)) {
        assert_eq!(series.name, format!("{i:4}").as_bytes());
        assert!(series.tags.iter().map(|tag| tag.0).eq(keys.iter().map(|key| key.as_bytes())));
        assert_eq!(series.tags[0].1, value(i).as_bytes());
        assert!(series.tags[1..].iter().all(|tag| tag.1.is_empty()));
        assert!(series.row.iter().map(|x| x.to_bits()).eq(row(i).map(f64::to_bits)));
        again.push(series.name, &series.tags, &series.row).unwrap();
    }
    assert_eq!(again.side().labels[..6], [0, 2, 0, 4, 255, 255]);
    assert!(again.side().labels[18..] == labels && again.side().readings == readings);
}

#[test]
fn answers_without_points_and_without_series_are_read_back() {
    let (mut labels, mut readings) = ([255; 8], [255; 8]);
    let (none, two) = (bare(0), bare(2));
    let answer = exec_binop(&query(OR), two.side(), none.side(), &mut labels, &mut readings).unwrap();
    let bare = Series { name: b"", tags: vec![], row: vec![] };
    assert!(answer.read(&labels, &readings).eq([bare.clone(), bare]));
    let answer = exec_binop(&query(OR), none.side(), none.side(), &mut labels, &mut readings).unwrap();
    assert_eq!(answer.read(&labels, &readings).count(), 0);
}

/// Among them what is encoded and yet no vector: 513 series, 1,025 points, 33 tags, keys and grids.
#[test]
fn each_refusal_is_told_in_words() {
    let told = |query: &[u8], left: &Vector, right: &Vector, words: &str| {
        let refusal = exec_binop(query, left.side(), right.side(), &mut [0; 8], &mut [0; 8]).unwrap_err();
        assert_eq!(refusal.to_string(), words);
    };
    let (plus, none, one) = (query(PLUS), bare(0), vector(1, &[("", &[], &[1.0])]));
    told(&query(ATAN2), &one, &one, "refused 1 0 0: the operator is above 18, or 2 (atan2), or 8 (^)");
    told(&[], &one, &one, "refused 2 0 0: the query or request is malformed");
    let words = "sizes, label length or record 0 out of bounds on the";
    told(&plus, &bare(513), &none, &format!("refused 3 0 0: {words} left"));
    told(&plus, &none, &Vector::new(1_025, 0, 1), &format!("refused 3 1 0: {words} right"));
    let keys: Vec<_> = (10..43).map(|i| i.to_string()).collect();
    let tags: Vec<_> = keys.iter().map(|key| (&key[..], "")).collect();
    let many = vector(0, &[("", &[], &[]), ("", &tags, &[])]);
    told(&plus, &many, &none, "refused 3 0 1: sizes, label length or record 1 out of bounds on the left");
    let words = "an empty key, keys out of order or a key __name__ in record";
    told(&plus, &vector(0, &[("", &[("", "")], &[])]), &none, &format!("refused 4 0 0: {words} 0 on the left"));
    let named = vector(0, &[("", &[], &[]), ("", &[("__name__", "")], &[])]);
    told(&plus, &none, &named, &format!("refused 4 1 1: {words} 1 on the right"));
    let cut = exec_binop(&plus, one.side(), Side { readings: &[], ..one.side() }, &mut [], &mut []).unwrap_err();
    assert_eq!(cut.to_string(), "refused 5 1 0: not as many readings as series times points on the right");
    told(&plus, &none, &one, "refused 6 0 0: the two sides have different numbers of points");
    let two = vector(1, &[("a", &[], &[1.0]), ("b", &[], &[1.0])]);
    told(&plus, &two, &one, "refused 7 1 0: of one key on the left, series 0 cannot be merged into series 1");
    told(&plus, &one, &two, "refused 8 1 0: of one key on the right, series 0 cannot be merged into series 1");
    let other = vector(0, &[("", &[("a", "")], &[])]);
    let words = "refused 9 0 0: the answer has over 512 series, 32 tags a series or 65,535 label bytes";
    told(&query(OR), &bare(512), &other, words);
    told(&query(OR), &bare(512), &none, "refused 10 0 0: the answer or text is longer than a lent output part");
    told(&plus, &Vector::new(0, 0, 0), &none, "refused 11 0 0: start or step out of range on the left");
    told(&plus, &none, &Vector::new(0, u64::MAX, 1), "refused 11 1 0: start or step out of range on the right");
    told(&plus, &none, &Vector::new(0, 1, 1), "refused 12 0 0: the two sides have different starts or steps");
    told(&[PLUS, 0, 0, 0, 0, 0, 9], &one, &one, "refused 13 0 0: the allowance is above 8");
    let above = exec_aggregate(&[5], one.side(), &mut [], &mut []).unwrap_err();
    assert_eq!(above.to_string(), "refused 14 0 0: the aggregate is above 4");
    let unnamed = vector(1, &[("a", &[], &[1.0]), ("", &[], &[1.0])]);
    let words = "refused 15 0 1: series 1 has a name, a key or a value that the text cannot have";
    assert_eq!(export_text(unnamed.side(), &mut []).unwrap_err().to_string(), words);
    let large = export_text(vector(1, &[("a", &[], &[1e300])]).side(), &mut []).unwrap_err();
    assert_eq!(large.to_string(), "refused 16 0 0: series 0 has a reading of size 2^40 or more");
    for number in [0, 17] {
        let words = format!("refused {number} 1 2: no refusal has this number");
        assert_eq!(Refusal { number, fields: [1, 2] }.to_string(), words);
    }
}
