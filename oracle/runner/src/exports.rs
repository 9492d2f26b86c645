//! Cases for the export of one vector. The Rust has none, so they are for the reference and the library alone.
use reference::{Call, ExportCall, Grid, Labels, Series, Tag, Vector};
use reference::{MAX_POINTS, MAX_SERIES, MAX_START, MAX_STEP, MAX_TAGS, SIZES};

use crate::cases::{labels, missing, random_grid, READINGS};
use crate::damage;
use crate::random::Random;

/// 2 to the 40th, from which on a reading is refused.
const LARGE: u64 = 0x4270_0000_0000_0000;
const NEGATIVE: u64 = 1 << 63;

pub fn call(vector: &Vector, room: usize) -> ExportCall {
    let (labels, readings) = vector.parts();
    ExportCall { labels, readings, room }
}

/// Room for every text of this vector, and some more: a line has 37 bytes at the most behind its labels, and these at most twice
/// as many as their record.
fn roomy(vector: &Vector) -> ExportCall {
    let mut c = call(vector, 0);
    c.room = vector.points * (2 * c.labels.len() + 37 * vector.series.len()) + 16;
    c
}

fn one(labels: Labels, row: &[u64]) -> ExportCall {
    roomy(&Vector { points: row.len(), grid: Grid { start: 7, step: 2 }, series: vec![Series { labels, row: row.to_vec() }] })
}

fn bits(value: f64) -> u64 {
    value.to_bits()
}

/// A series of one reading with this name.
fn with_name(name: &[u8]) -> ExportCall {
    one(labels(name, &[]), &[bits(1.0)])
}

fn with_key(key: &[u8]) -> ExportCall {
    one(labels(b"x", &[(key, b"v")]), &[bits(1.0)])
}

fn with_value(value: &[u8]) -> ExportCall {
    one(labels(b"x", &[(b"k", value)]), &[bits(1.0)])
}

/// What makes a case of a word.
type Made = fn(&[u8]) -> ExportCall;

/// Of a name, of a key and of a value, by kind.
const WORDS: [(&str, Made); 3] = [
    ("every one or two bytes as a name", with_name),
    ("every one or two bytes as a key", with_key),
    ("every one or two bytes as a value", with_value),
];

/// No byte, every byte, and every two, as a name, as a key and as a value.
pub fn short_words(visit: &mut dyn FnMut(&'static str, ExportCall)) {
    for (kind, made) in WORDS {
        visit(kind, made(&[]));
        for first in 0..=255 {
            visit(kind, made(&[first]));
            for second in 0..=255 {
                visit(kind, made(&[first, second]));
            }
        }
    }
}

/// Every byte first, within and last in words of 3, 9, 254 and 255 bytes; and a value of as many of the byte.
pub fn longer_words(visit: &mut dyn FnMut(ExportCall)) {
    for byte in 0..=255 {
        for length in [3, 9, 254, 255] {
            for place in [0, 1, length / 2, length - 2, length - 1] {
                let mut word = vec![b'w'; length];
                word[place] = byte;
                for (_, made) in WORDS {
                    visit(made(&word));
                }
            }
            visit(with_value(&vec![byte; length]));
        }
    }
}

/// The borders of the bytes behind the first: 80 to BF, and what is left of that behind E0, ED, F0 and F4.
const SECOND: [u8; 13] = [0x00, 0x0a, 0x22, 0x5c, 0x7f, 0x80, 0x8f, 0x90, 0x9f, 0xa0, 0xbf, 0xc0, 0xff];
const LATER: [u8; 4] = [0x7f, 0x80, 0xbf, 0xc0];

/// Every first byte of a sequence of UTF-8, and every byte that is none, with two and with three bytes at the borders behind it;
/// each by itself, with a letter behind it, and with a letter before it.
pub fn sequences(visit: &mut dyn FnMut(ExportCall)) {
    let mut put = |sequence: &[u8]| {
        visit(with_value(sequence));
        visit(with_value(&[sequence, b"z"].concat()));
        visit(with_value(&[b"a", sequence].concat()));
    };
    for first in 0x80..=0xff {
        for second in SECOND {
            for third in LATER {
                put(&[first, second, third]);
                for fourth in LATER {
                    put(&[first, second, third, fourth]);
                }
            }
        }
    }
}

/// Characters at the borders of each length, and what is escaped.
const CHARACTERS: [char; 17] = [
    'a',
    ' ',
    '\0',
    '\n',
    '"',
    '\\',
    '\u{7f}',
    '\u{80}',
    '\u{7ff}',
    '\u{800}',
    '\u{d7ff}',
    '\u{e000}',
    '\u{fffd}',
    '\u{ffff}',
    '\u{10000}',
    '\u{fffff}',
    '\u{10ffff}',
];

/// What is no UTF-8: continuations alone, cut sequences, overlong forms, surrogates, above 10FFFF, bytes that begin nothing.
const BROKEN: [&[u8]; 16] = [
    b"\x80",
    b"\xbf",
    b"\xc2",
    b"\xe1\x80",
    b"\xe0\xa0",
    b"\xf1\x80\x80",
    b"\xc0\x80",
    b"\xc1\xbf",
    b"\xe0\x80\x80",
    b"\xe0\x9f\xbf",
    b"\xed\xa0\x80",
    b"\xed\xbf\xbf",
    b"\xf0\x8f\xbf\xbf",
    b"\xf4\x90\x80\x80",
    b"\xf5\x80\x80\x80",
    b"\xff",
];

/// Characters one behind another, of up to so many bytes.
fn random_characters(r: &mut Random, most: usize) -> Vec<u8> {
    let mut value = Vec::new();
    let count = r.below(most.min(40) + 1);
    for _ in 0..if r.one_in(20) { most } else { count } {
        let any = char::from_u32(r.below(0x11_0000) as u32).unwrap_or('\u{fffd}');
        let next = if r.one_in(3) { any } else { r.pick(&CHARACTERS) };
        if value.len() + next.len_utf8() > most {
            break;
        }
        value.extend_from_slice(next.encode_utf8(&mut [0; 4]).as_bytes());
    }
    value
}

/// A value of characters, in half of the cases with something broken among them; or cut anywhere.
pub fn random_utf8(r: &mut Random) -> ExportCall {
    let mut value = random_characters(r, 240);
    if r.one_in(2) {
        let broken = r.pick(&BROKEN);
        let place = r.below(value.len() + 1);
        value.splice(place..place, broken.iter().copied());
    } else if r.one_in(2) {
        value.truncate(r.below(value.len() + 1));
    }
    with_value(&value)
}

/// The readings that are so many steps from this one.
fn near(reading: u64, steps: i64) -> Vec<u64> {
    (-steps..=steps).map(|step| reading.wrapping_add_signed(step)).collect()
}

/// Cases of one series, of the readings in rows of up to 32, each as it is and negative.
fn rows(readings: &[u64], visit: &mut dyn FnMut(ExportCall)) {
    for sign in [0, NEGATIVE] {
        for part in readings.chunks(32) {
            visit(one(labels(b"x", &[]), &part.iter().map(|reading| reading ^ sign).collect::<Vec<_>>()));
        }
    }
}

/// The reading nearest below n thousandths and a half, in the range of this exponent.
fn below_half(r: &mut Random, exponent: u64) -> u64 {
    // Its size is mantissa / 2^power, with a mantissa of 2^52 to 2^53.
    let power = 1075 - exponent as u32;
    let (least, most) = ((1000u128 << 52) >> power, (1000u128 << 53) >> power);
    let thousandths = least + r.below((most - least) as usize + 1) as u128;
    let mantissa = ((2 * thousandths + 1) << power) / 2000;
    (exponent << 52) + (mantissa as u64).saturating_sub(1 << 52).min((1 << 52) - 1)
}

/// An odd number of sixteenths, which are the exact halves, in the range of this exponent.
fn exact_half(r: &mut Random, exponent: u64) -> u64 {
    let least = 16 << (exponent - 1023);
    bits((2 * (least / 2 + r.below(least as usize / 2) as u64) + 1) as f64 / 16.0)
}

/// At every exponent below 2 to the 40th: the ends of its range and readings at random; where it has thousandths, readings about
/// their halves; where it has sixteenths, readings about the exact halves.
pub fn halves(r: &mut Random, rounds: usize, visit: &mut dyn FnMut(ExportCall)) {
    for exponent in 0..1063u64 {
        let (least, most) = (exponent << 52, (exponent << 52) + (1 << 52) - 1);
        let mut readings = vec![least, least + 1, least + 2, most, most - 1, most - 2, least + (1 << 51)];
        readings.extend((0..9).map(|_| least + r.word() % (1 << 52)));
        if exponent >= 1012 {
            for _ in 0..rounds {
                readings.extend(near(below_half(r, exponent), 3));
            }
        }
        if exponent >= 1023 {
            for _ in 0..rounds {
                readings.extend(near(exact_half(r, exponent), 2));
            }
        }
        rows(&readings, visit);
    }
    // The exact halves below 1, and half of a thousandth, on whose two sides zero and 0.001 are printed.
    let small: Vec<u64> = (1..16).step_by(2).flat_map(|odd| near(bits(f64::from(odd) / 16.0), 4)).collect();
    rows(&small, visit);
    rows(&near(bits(0.0005), 40), visit);
    rows(&[0, 1, 2, 0x000f_ffff_ffff_ffff, 0x0010_0000_0000_0000, 0x0010_0000_0000_0001], visit);
}

/// Readings about 2 to the 40th and far beyond, the largest, an infinity and a missing one.
const ENDS: [u64; 10] = [
    LARGE - 2,
    LARGE - 1,
    LARGE,
    LARGE + 1,
    LARGE + (1 << 52),
    0x43e0_0000_0000_0000,
    0x7fe0_0000_0000_0000,
    0x7fef_ffff_ffff_ffff,
    0x7ff0_0000_0000_0000,
    0x7ff0_0000_0000_0001,
];

/// Each of these at every place of one to four series of one to four points, among readings that are good; and every exponent from 2
/// to the 40th on.
pub fn large(r: &mut Random, visit: &mut dyn FnMut(ExportCall)) {
    for n in 1..=4 {
        for p in 1..=4 {
            for place in 0..n * p {
                for end in ENDS {
                    for sign in [0, NEGATIVE] {
                        let mut readings: Vec<u64> = (0..n * p).map(|i| bits(i as f64 - 2.5)).collect();
                        if r.one_in(2) {
                            readings[r.below(n * p)] = missing(r);
                        }
                        readings[place] = end ^ sign;
                        let series = readings.chunks(p).map(|row| Series { labels: labels(b"x", &[]), row: row.to_vec() });
                        visit(roomy(&Vector { points: p, grid: Grid::HOURLY, series: series.collect() }));
                    }
                }
            }
        }
    }
    for exponent in 1063..2048u64 {
        for fraction in [0, 1, (1 << 52) - 1] {
            rows(&[bits(1.0), exponent << 52 | fraction], visit);
        }
    }
}

/// Times at every border of start and step, on rows of no point to 1,024; and starts about every power of ten, so that times gain a
/// digit within a row.
pub fn times(visit: &mut dyn FnMut(ExportCall)) {
    let mut put = |start: u64, step: u32, points: usize| {
        let row = (0..points).map(|i| bits(i as f64)).collect();
        let series = vec![Series { labels: labels(b"x", &[]), row }];
        visit(roomy(&Vector { points, grid: Grid { start, step }, series }));
    };
    for start in [0, 1, MAX_START / 2, MAX_START - 1, MAX_START, MAX_START + 1, u64::MAX] {
        for step in [0, 1, 2, 1_000, MAX_STEP - 1, MAX_STEP, MAX_STEP + 1, u32::MAX] {
            for points in [0, 1, 2, 3, MAX_POINTS - 1, MAX_POINTS] {
                put(start, step, points);
            }
        }
    }
    for power in 0..16 {
        let ten = 10u64.pow(power);
        for start in [ten - 1, ten, ten + 1, ten.saturating_sub(9), ten.saturating_sub(3_600_000)] {
            for step in [1, 2, 9, 10, 99, 3_600_000, MAX_STEP] {
                put(start.min(MAX_START), step, 12);
            }
        }
    }
}

/// No series, no points, and no reading that is present, into parts of several lengths.
pub fn nothing(visit: &mut dyn FnMut(ExportCall)) {
    for n in [0, 1, 2, 3, MAX_SERIES] {
        for p in [0, 1, 2, 3, MAX_POINTS] {
            for name in [&b"x"[..], b"", b"9"] {
                let row: Vec<u64> = READINGS[19..].iter().copied().cycle().take(p).collect();
                let series = vec![Series { labels: labels(name, &[(b"k", b"v")]), row }; n];
                for room in [0, 1, 40] {
                    visit(call(&Vector { points: p, grid: Grid { start: 7, step: 2 }, series: series.clone() }, room));
                }
            }
        }
    }
}

/// How many series and points a random vector may have.
#[derive(Clone, Copy, PartialEq, Eq)]
pub enum Extent {
    /// Up to 5 series of up to 6 points.
    Small,
    /// p to 1,024.
    Long,
    /// Up to 512 series of few points.
    Wide,
}

const WORD_BYTES: &[u8] = b"abcxyzABCXYZ_019_";

/// A name or a key that a text can have.
fn random_word(r: &mut Random, name: bool) -> Vec<u8> {
    let length = if r.one_in(40) { 255 } else { 1 + r.below(8) };
    let mut word: Vec<u8> = (0..length).map(|_| r.pick(WORD_BYTES)).collect();
    if word[0].is_ascii_digit() {
        word[0] = b'd';
    }
    if name && r.one_in(4) {
        let place = r.below(length);
        word[place] = b':';
    }
    word
}

fn random_labels(r: &mut Random) -> Labels {
    let count = if r.one_in(40) { MAX_TAGS } else { r.below(5) };
    let mut tags: Vec<Tag> = (0..count)
        .map(|_| {
            let most = if r.one_in(30) { 255 } else { 12 };
            Tag { key: random_word(r, false), value: random_characters(r, most) }
        })
        .collect();
    tags.sort();
    tags.dedup_by(|a, b| a.key == b.key);
    Labels { name: random_word(r, true), tags }
}

/// A reading below 2 to the 40th in size.
fn random_reading(r: &mut Random) -> u64 {
    let sign = if r.one_in(3) { NEGATIVE } else { 0 };
    let size = match r.below(8) {
        0 => bits(r.below(2000) as f64),
        1 => bits(r.below(1 << 30) as f64 / 100.0),
        2 => bits(r.below(1 << 30) as f64 / 16.0),
        3 => bits(r.below(1 << 20) as f64 / 2000.0),
        4 => r.word() % LARGE,
        5 => (1000 << 52) + r.word() % (63 << 52),
        6 => r.pick(&[0, 1, bits(0.0005), bits(0.0625), LARGE - 1, bits(999.9995), bits(0.9995)]),
        _ => {
            let exponent = 1012 + r.below(51) as u64;
            below_half(r, exponent).saturating_add(r.below(3) as u64)
        }
    };
    size ^ sign
}

fn random_vector(r: &mut Random, extent: Extent) -> Vector {
    let (n, p) = match extent {
        Extent::Small => (r.pick(&[0, 1, 1, 1, 2, 2, 3, 4, 5]), r.pick(&[0, 1, 1, 2, 2, 3, 4, 6])),
        Extent::Long => (r.pick(&[1, 2, 5]), r.pick(&[64, 200, 1023, 1024])),
        Extent::Wide => (r.pick(&[40, 150, 400, 511, 512]), r.below(5)),
    };
    let present = r.pick(&[1, 2, 3, 4, 4, 4]);
    let series = (0..n).map(|_| {
        let mut labels = random_labels(r);
        if extent == Extent::Wide {
            // So many records have to fit 65,535 bytes.
            labels.name.truncate(20);
            labels.tags.retain(|tag| tag.key.len() + tag.value.len() < 20);
            labels.tags.truncate(4);
        }
        let row = (0..p).map(|_| if r.below(4) < present { random_reading(r) } else { missing(r) }).collect();
        Series { labels, row }
    });
    let series = series.collect();
    Vector { points: p, grid: random_grid(r), series }
}

pub fn random(r: &mut Random, extent: Extent) -> ExportCall {
    roomy(&random_vector(r, extent))
}

const BAD_KEYS: [&[u8]; 6] = [b"0", b"9a", b"zz:z", b"zzz-", b"zzz\xc3\xa9", b"~"];
const BAD_FIRSTS: &[u8] = b"09 -/@[`{\x80\xc3";

/// Makes something wrong with a series, or leaves it without a reading.
fn spoil(r: &mut Random, series: &mut Series) {
    let Series { labels, row } = series;
    match r.below(8) {
        0 => labels.name.clear(),
        1 => labels.name = vec![r.pick(BAD_FIRSTS)],
        2 => labels.name.push(r.pick(&BAD_FIRSTS[2..])),
        3 => labels.tags.push(Tag { key: r.pick(&BAD_KEYS).to_vec(), value: vec![] }),
        4 => labels.tags.push(Tag { key: b"zzzz".to_vec(), value: r.pick(&BROKEN).to_vec() }),
        5 => row.iter_mut().for_each(|reading| *reading = missing(r)),
        _ => {
            let place = r.below(row.len());
            row[place] = r.pick(&ENDS[2..9]);
        }
    }
    labels.tags.sort();
    labels.tags.dedup_by(|a, b| a.key == b.key);
    labels.name.truncate(255);
    labels.tags.truncate(MAX_TAGS);
}

/// Two to six series of which some have one fault or two, into a part that is long, short or none: which is named is the point.
pub fn several_faults(r: &mut Random) -> ExportCall {
    let mut vector = random_vector(r, Extent::Small);
    vector.points = 1 + r.below(3);
    let mut series: Vec<Series> = (0..2 + r.below(5))
        .map(|_| Series { labels: random_labels(r), row: (0..vector.points).map(|_| random_reading(r)).collect() })
        .collect();
    for each in &mut series {
        for _ in 0..r.below(3) {
            spoil(r, each);
        }
    }
    vector.series = series;
    let mut c = roomy(&vector);
    c.room = r.pick(&[0, 1, 100, c.room, c.room, c.room]);
    c
}

/// Output parts of every length up to two more than a short text's; about a longer one's, and none.
pub fn rooms(r: &mut Random, visit: &mut dyn FnMut(ExportCall)) {
    let mut c = random(r, Extent::Small);
    let length = reference::export(&c).map_or(40, |text| text.len());
    let mut rooms: Vec<usize> = (length.saturating_sub(3)..=length + 3).chain([0, 1, length / 2, 2 * length + 100]).collect();
    if length <= 100 {
        rooms.extend(0..length);
    }
    for room in rooms {
        c.room = room;
        visit(c.clone());
    }
}

/// One to four bytes changed anywhere in the label part, or the part cut, or a byte more; a reading more or fewer at times: which
/// fault comes first is the point.
pub fn changed_bytes(r: &mut Random) -> ExportCall {
    let mut c = random(r, Extent::Small);
    for _ in 0..1 + r.below(4) {
        let most = if r.one_in(2) { c.labels.len().min(SIZES) } else { c.labels.len() };
        let at = r.below(most);
        c.labels[at] = match r.below(4) {
            0 => r.word() as u8,
            1 => c.labels[at].wrapping_add(1),
            2 => c.labels[at].wrapping_sub(1),
            _ => r.pick(&[0, 1, 2, 32, 33, b'"', b'0', b':', b'\\', 0x80, 0xc3, 255]),
        };
    }
    match r.below(12) {
        0 => c.labels.truncate(r.below(c.labels.len() + 1)),
        1 => c.labels.push(r.word() as u8),
        2 => c.readings.push(0),
        3 => {
            c.readings.pop();
        }
        _ => {}
    }
    c
}

/// The label part of a good vector cut at every length, its array's stated length as it was and to suit.
pub fn cuts(r: &mut Random, visit: &mut dyn FnMut(ExportCall)) {
    let c = random(r, Extent::Small);
    for length in 0..c.labels.len().min(200) {
        let mut labels = c.labels[..length].to_vec();
        visit(ExportCall { labels: labels.clone(), ..c.clone() });
        if length >= SIZES {
            labels[4..6].copy_from_slice(&((length - SIZES) as u16).to_le_bytes());
            visit(ExportCall { labels, ..c.clone() });
        }
    }
}

/// The sides of the cases of `damage`, each as the vector of an export.
pub fn damaged(r: &mut Random, n: usize, visit: &mut dyn FnMut(ExportCall)) {
    let mut sides = |c: Call| {
        for (labels, readings) in [(c.left_labels, c.left), (c.right_labels, c.right)] {
            visit(ExportCall { labels, readings, room: 4096 });
        }
    };
    for _ in 0..n {
        damage::changed_bytes(r, &mut sides);
        damage::bad_keys(r, &mut sides);
        damage::grids(r, &mut sides);
    }
    damage::grid_borders(&mut sides);
}

/// The limits: 512 series, 1,024 points, both; 32 tags; names, keys and values of 255 bytes, each byte escaped; 65,535 label bytes,
/// of which the text is the longest that there is; and one beyond each. The longest come last.
pub fn limits(visit: &mut dyn FnMut(ExportCall)) {
    let most = [LARGE - 1, (LARGE - 1) ^ NEGATIVE];
    let last = Grid { start: MAX_START, step: MAX_STEP };
    let vector = |labels: Labels, n: usize, points: usize| {
        let row: Vec<u64> = (0..points).map(|i| most[i % 2]).collect();
        Vector { points, grid: last, series: vec![Series { labels, row }; n] }
    };
    for tags in [MAX_TAGS - 1, MAX_TAGS, MAX_TAGS + 1] {
        for value in [&b""[..], &[b'\\'; 255], "\u{10ffff}".repeat(63).as_bytes()] {
            let tag = |i: usize| Tag { key: format!("k{i:02}").into_bytes(), value: value.to_vec() };
            let labels = Labels { name: vec![b'n'; 255], tags: (0..tags).map(tag).collect() };
            visit(roomy(&vector(labels, 1, 3)));
        }
    }
    let long = Tag { key: vec![b'k'; 255], value: vec![b'\n'; 255] };
    visit(roomy(&vector(Labels { name: vec![b':'; 255], tags: vec![long] }, 3, 3)));
    for (n, points) in [(MAX_SERIES, 3), (MAX_SERIES + 1, 3), (3, MAX_POINTS), (3, MAX_POINTS + 1), (MAX_SERIES, MAX_POINTS)] {
        visit(roomy(&vector(labels(b"n", &[(b"k", b"v")]), n, points)));
    }
    // 512 records of 128 bytes, whose values are all escaped, but for the last.
    for (bytes, points) in [(65_534, 1), (65_535, 1), (65_536, 1), (65_535, MAX_POINTS)] {
        let value = |i: usize| vec![b'"'; if i + 1 == MAX_SERIES { 122 + bytes - 65_536 } else { 122 }];
        let mut longest = vector(labels(b"n", &[]), MAX_SERIES, points);
        for (i, series) in longest.series.iter_mut().enumerate() {
            series.labels.tags = vec![Tag { key: b"k".to_vec(), value: value(i) }];
        }
        let c = roomy(&longest);
        let Ok(text) = reference::export(&c) else {
            visit(c);
            continue;
        };
        for room in [text.len() - 1, text.len(), text.len() + 1] {
            visit(ExportCall { room, ..c.clone() });
        }
    }
}
