//! 02's "Export for the shop screen": each sentence, and what a wrong program would take it for, by small examples worked by hand;
//! and values held against the standard library's exact decimals, rounded by their fourth.
use reference::*;

const NAN: f64 = f64::NAN;
const LARGE: f64 = (1u64 << 40) as f64;

fn labels(name: &[u8], tags: &[(&[u8], &[u8])]) -> Labels {
    let tags = tags.iter().map(|(k, v)| Tag { key: k.to_vec(), value: v.to_vec() }).collect();
    Labels { name: name.to_vec(), tags }
}

fn series(labels: Labels, values: &[f64]) -> Series {
    Series { labels, row: values.iter().map(|v| v.to_bits()).collect() }
}

fn vector(grid: Grid, series: Vec<Series>) -> Vector {
    Vector { points: series.first().map_or(0, |s| s.row.len()), grid, series }
}

fn called(vector: &Vector, room: usize) -> Exported {
    let (labels, readings) = vector.parts();
    export(&ExportCall { labels, readings, room })
}

const TWOS: Grid = Grid { start: 7, step: 2 };

fn exported(all: Vec<Series>) -> Exported {
    called(&vector(TWOS, all), 1 << 20)
}

fn text(all: Vec<Series>) -> String {
    String::from_utf8(exported(all).expect("a text")).expect("UTF-8")
}

/// The text of one series with the reading 1.
fn labelled(name: &[u8], tags: &[(&[u8], &[u8])]) -> Exported {
    exported(vec![series(labels(name, tags), &[1.0])])
}

/// The value that is written for a reading.
fn value(reading: f64) -> String {
    let line = text(vec![series(labels(b"x", &[]), &[reading])]);
    line.strip_prefix("x ").and_then(|rest| rest.strip_suffix(" 7\n")).expect("a line").to_string()
}

#[test]
fn each_present_reading_is_a_line_series_by_series() {
    let all = vec![
        series(labels(b"fed", &[(b"form", b"1"), (b"press", b"A")]), &[1000.0, NAN, 900.5]),
        series(labels(b"idle", &[]), &[NAN, NAN, NAN]),
        series(labels(b"rate", &[]), &[0.95, -2.0, NAN]),
    ];
    let expected =
        "fed{form=\"1\",press=\"A\"} 1000.000 7\nfed{form=\"1\",press=\"A\"} 900.500 11\nrate 0.950 7\nrate -2.000 9\n";
    assert_eq!(text(all), expected);
}

#[test]
fn every_nan_is_missing() {
    for bits in [0x7ff8_0000_0000_0000, 0xfff8_0000_0000_0000, 0x7ff0_0000_0000_0001, 0xffff_ffff_ffff_ffff] {
        assert_eq!(text(vec![series(labels(b"x", &[]), &[f64::from_bits(bits), 1.0])]), "x 1.000 9\n");
    }
}

#[test]
fn no_line_is_an_empty_text() {
    for all in [vec![], vec![series(labels(b"x", &[]), &[])], vec![series(labels(b"x", &[]), &[NAN])]] {
        assert_eq!(called(&vector(TWOS, all), 0), Ok(vec![]));
    }
}

#[test]
fn an_empty_value_is_written() {
    assert_eq!(labelled(b"x", &[(b"k", b"")]), Ok(b"x{k=\"\"} 1.000 7\n".to_vec()));
}

#[test]
fn three_bytes_are_escaped_in_values() {
    let given = b"a\\b\"c\nd\\\\";
    assert_eq!(labelled(b"x", &[(b"k", given)]), Ok(b"x{k=\"a\\\\b\\\"c\\nd\\\\\\\\\"} 1.000 7\n".to_vec()));
    // What else a value has stands as it is: controls, spaces, braces, commas.
    let plain = b"\0\r\t {}=,'\x7f";
    assert_eq!(labelled(b"x", &[(b"k", plain)]), Ok([&b"x{k=\""[..], plain, b"\"} 1.000 7\n"].concat()));
}

#[test]
fn halves_go_away_from_zero() {
    // 02's own examples.
    assert_eq!((value(0.0625), value(-0.0625)), ("0.063".to_string(), "-0.063".to_string()));
    // To even would give 0.062 and 0.188.
    assert_eq!((value(0.1875), value(-0.1875)), ("0.188".to_string(), "-0.188".to_string()));
    let (up, down) = (0.0625f64.to_bits() + 1, 0.0625f64.to_bits() - 1);
    assert_eq!((value(f64::from_bits(up)), value(f64::from_bits(down))), ("0.063".to_string(), "0.062".to_string()));
}

#[test]
fn values_are_taken_exactly() {
    // 0.0005 is above its half, 1.0005 below; a product with 1,000 rounds both to the half.
    assert_eq!(0.0005f64 * 1000.0, 0.5);
    assert_eq!(1.0005f64 * 1000.0, 1000.5);
    assert_eq!((value(0.0005), value(1.0005)), ("0.001".to_string(), "1.000".to_string()));
    assert_eq!((value(0.0015), value(2.0005)), ("0.002".to_string(), "2.001".to_string()));
    assert_eq!(value(999.9995), "1000.000");
    assert_eq!(value(0.9994999999999999), "0.999");
}

#[test]
fn a_printed_zero_has_no_sign() {
    let smallest = f64::from_bits(1);
    for zero in [0.0, -0.0, smallest, -smallest, f64::MIN_POSITIVE, -f64::MIN_POSITIVE, 0.0004999, -0.0004999, -1e-300] {
        assert_eq!(value(zero), "0.000", "{zero:e}");
    }
    assert_eq!(value(-0.0006), "-0.001");
}

#[test]
fn sizes_from_2_to_the_40th_on_are_refused() {
    let below = f64::from_bits(LARGE.to_bits() - 1);
    assert_eq!((value(below), value(-below)), ("1099511627776.000".to_string(), "-1099511627776.000".to_string()));
    assert_eq!(value(LARGE - 0.5), "1099511627775.500");
    let above = f64::from_bits(LARGE.to_bits() + 1);
    for large in [LARGE, above, 1e300, f64::MAX, f64::INFINITY] {
        for reading in [large, -large] {
            assert_eq!(exported(vec![series(labels(b"x", &[]), &[1.0, reading])]), Err(Refusal::new(16, 0, 0)));
        }
    }
}

/// The exact decimals of the standard library, cut behind the fourth and rounded as people do.
fn by_decimals(reading: f64) -> String {
    let exact = format!("{:.1074}", reading.abs());
    let (whole, decimals) = exact.split_once('.').expect("a point");
    let (kept, fourth) = (format!("{whole}{}", &decimals[..3]), decimals.as_bytes()[3]);
    let rounded = kept.parse::<u64>().expect("digits") + u64::from(fourth >= b'5');
    let sign = if reading.is_sign_negative() && rounded > 0 { "-" } else { "" };
    format!("{sign}{}.{:03}", rounded / 1000, rounded % 1000)
}

#[test]
fn values_are_the_exact_decimals_rounded() {
    for power in 0..1063u64 {
        for fraction in [0, 1, 0x0008_0000_0000_0000, 0x000f_ffff_ffff_ffff, 0x0005_5555_5555_5555, 0x0009_47ae_147a_e148] {
            for sign in [0, 1 << 63] {
                let bits = sign | power << 52 | fraction;
                assert_eq!(written_value(bits), by_decimals(f64::from_bits(bits)), "{bits:016x}");
            }
        }
    }
    for odd in (1..4000).step_by(2) {
        for near in [-2i64, -1, 0, 1, 2] {
            let bits = (f64::from(odd) / 16.0).to_bits().wrapping_add_signed(near);
            assert_eq!(written_value(bits), by_decimals(f64::from_bits(bits)), "{bits:016x}");
        }
    }
}

#[test]
fn names_and_keys() {
    let refused = Err(Refusal::new(15, 0, 0));
    for name in [&b"a"[..], b"_", b":", b"A9", b"a:b_c9Z", b"__name__", b":9"] {
        assert_eq!(labelled(name, &[]), Ok([name, b" 1.000 7\n"].concat()));
    }
    for name in [&b""[..], b"9", b"9a", b"a b", b"a-b", b" ", b"a\n", b"a{", b"\xc3\xa9", b"a\0", b"a\x7f", b"a.b"] {
        assert_eq!(labelled(name, &[]), refused);
    }
    for key in [&b"a"[..], b"_", b"Z9_", b"__x"] {
        assert_eq!(labelled(b"x", &[(key, b"v")]), Ok([b"x{", key, b"=\"v\"} 1.000 7\n"].concat()));
    }
    // The colon is for names alone.
    for key in [&b":"[..], b"a:b", b"9", b"9a", b"a-b", b"press no.", b"\xc3\xa9", b"a\0", b"a@", b"a[", b"a`", b"a{"] {
        assert_eq!(labelled(b"x", &[(key, b"v")]), refused);
    }
}

#[test]
fn values_are_utf_8() {
    let good: [&[u8]; 12] = [
        b"\0",
        b"\x7f",
        b"\xc2\x80",
        b"\xdf\xbf",
        b"\xe0\xa0\x80",
        b"\xed\x9f\xbf",
        b"\xee\x80\x80",
        b"\xef\xbf\xbf",
        b"\xf0\x90\x80\x80",
        b"\xf4\x8f\xbf\xbf",
        "aé€😀z".as_bytes(),
        b"\xef\xbb\xbfbom",
    ];
    for value in good {
        assert_eq!(labelled(b"x", &[(b"k", value)]), Ok([b"x{k=\"", value, b"\"} 1.000 7\n"].concat()));
    }
    // A continuation alone, cut sequences, overlong forms, surrogates, above 10FFFF, bytes that begin nothing.
    let bad: [&[u8]; 17] = [
        b"\x80",
        b"\xbf",
        b"\xc2",
        b"\xc2a",
        b"\xe0\xa0",
        b"\xf0\x90\x80",
        b"\xc0\x80",
        b"\xc1\xbf",
        b"\xe0\x9f\xbf",
        b"\xf0\x8f\xbf\xbf",
        b"\xed\xa0\x80",
        b"\xed\xbf\xbf",
        b"\xf4\x90\x80\x80",
        b"\xf5\x80\x80\x80",
        b"\xff",
        b"a\xfe",
        b"\xf8\x88\x80\x80\x80",
    ];
    for value in bad {
        assert_eq!(labelled(b"x", &[(b"k", value)]), Err(Refusal::new(15, 0, 0)), "{value:02x?}");
        assert_eq!(labelled(b"x", &[(b"a", b""), (b"k", b"ok"), (b"l", value)]), Err(Refusal::new(15, 0, 0)));
    }
}

#[test]
fn the_first_series_at_fault_is_named_15_before_16() {
    let good = || series(labels(b"x", &[]), &[1.0]);
    let unnamed = || series(labels(b"", &[]), &[1.0]);
    let large = || series(labels(b"x", &[]), &[LARGE]);
    let both = || series(labels(b"9", &[]), &[LARGE]);
    let first = |all: Vec<Series>, number, place| assert_eq!(exported(all), Err(Refusal::new(number, 0, place)));
    first(vec![good(), both(), unnamed()], 15, 1);
    // A 16 before a 15: not all 15s come first.
    first(vec![good(), large(), unnamed()], 16, 1);
    first(vec![good(), good(), unnamed(), large()], 15, 2);
    // A series without a line has to have a name too.
    first(vec![good(), series(labels(b"", &[]), &[NAN])], 15, 1);
    first(vec![series(labels(b"", &[]), &[])], 15, 0);
    // Both before 10.
    for (fault, number) in [(unnamed(), 15), (large(), 16)] {
        assert_eq!(called(&vector(TWOS, vec![good(), fault]), 0), Err(Refusal::new(number, 0, 1)));
    }
}

#[test]
fn ten_is_for_the_whole_text() {
    let all = vector(TWOS, vec![series(labels(b"x", &[]), &[1.0, 2.0])]);
    let whole = b"x 1.000 7\nx 2.000 9\n";
    for room in 0..whole.len() {
        assert_eq!(called(&all, room), Err(Refusal::new(10, 0, 0)));
    }
    for room in [whole.len(), whole.len() + 1] {
        assert_eq!(called(&all, room), Ok(whole.to_vec()));
    }
}

#[test]
fn a_vector_s_faults_come_first_with_side_0() {
    let unnamed = vector(TWOS, vec![series(labels(b"", &[]), &[LARGE])]);
    let (part, readings) = unnamed.parts();
    let refused = |labels: &[u8], readings: &[u64]| {
        export(&ExportCall { labels: labels.to_vec(), readings: readings.to_vec(), room: 0 }).expect_err("a refusal")
    };
    assert_eq!(refused(&part[..17], &readings), Refusal::new(3, 0, 0));
    assert_eq!(refused(&part[..19], &readings), Refusal::new(3, 0, 0));
    assert_eq!(refused(&part, &[]), Refusal::new(5, 0, 0));
    let mut off_grid = part.clone();
    off_grid[14] = 0;
    assert_eq!(refused(&off_grid, &readings), Refusal::new(11, 0, 0));
    let key = vector(TWOS, vec![series(labels(b"", &[]), &[1.0]), series(labels(b"x", &[(b"", b"")]), &[1.0])]);
    assert_eq!(called(&key, 0), Err(Refusal::new(4, 0, 1)));
    assert_eq!(refused(&part, &readings), Refusal::new(15, 0, 0));
}

#[test]
fn times_reach_past_the_last_start() {
    let grid = Grid { start: MAX_START, step: MAX_STEP };
    let last = Vector { points: MAX_POINTS, grid, series: vec![series(labels(b"x", &[]), &[1.0; MAX_POINTS])] };
    let text = called(&last, 1 << 20).expect("a text");
    assert!(text.starts_with(b"x 1.000 4503599627370496\nx 1.000 4503599713770496\n"));
    assert!(text.ends_with(b"\nx 1.000 4503688014570496\n"));
}
