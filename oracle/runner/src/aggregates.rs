//! Cases for aggregates over one vector. Of these the Rust is the measure of the edited labels alone: the others are for the
//! reference and the library.
use reference::{Aggregate, AggregateCall, Call, Grid, Grouping, Labels, Request, Room, Series, Tag, Vector};
use reference::{MAX_POINTS, MAX_SERIES, NAME, SIZES};

use crate::cases::{label_sides, labels, labels_near, missing, put_number, random_grid, random_labels, LISTED, READINGS};
use crate::damage;
use crate::random::Random;

/// How many series and points a random case may have.
#[derive(Clone, Copy, PartialEq, Eq)]
pub enum Extent {
    /// Up to 8 series, some dozens at times; p to 6.
    Small,
    /// p to 1,024.
    Long,
    /// Up to 512 series of few points.
    Wide,
    /// 512 series of 1,024 points, or nearly.
    Full,
}

/// What the readings of a vector are drawn from.
#[derive(Clone, Copy)]
enum Drawn {
    Counts,
    /// Sums of tenths round, each order in its own way.
    Tenths,
    /// Zeros of either sign, and few others.
    Zeros,
    /// Infinities and the largest of either sign: sums overflow, and become missing.
    Ends,
    Special,
    AnyBits,
}

const DRAWN: [Drawn; 6] = [Drawn::Counts, Drawn::Tenths, Drawn::Zeros, Drawn::Ends, Drawn::Special, Drawn::AnyBits];

pub fn call(request: &Request, vector: &Vector, room: Room) -> AggregateCall {
    let (labels, readings) = vector.parts();
    AggregateCall { request: request.bytes(), labels, readings, room }
}

/// Room for an answer as long as the vector, which none exceeds, and some more.
fn roomy(request: &Request, vector: &Vector) -> AggregateCall {
    let mut c = call(request, vector, Room { labels: 0, readings: 0 });
    c.room = Room { labels: c.labels.len() + 16, readings: c.readings.len() + 32 };
    c
}

/// A random case of this aggregate and grouping. `utf8` keeps labels to UTF-8.
pub fn random(r: &mut Random, aggregate: Aggregate, grouping: Grouping, extent: Extent, utf8: bool) -> AggregateCall {
    let mut list = random_list(r);
    if matches!(extent, Extent::Wide | Extent::Full) && r.one_in(2) {
        list.truncate(31);
        list.push(b"!".to_vec());
    }
    let request = Request { aggregate, grouping, list };
    roomy(&request, &random_vector(r, extent, utf8))
}

/// A request of this grouping, and labels for it to edit.
pub fn random_edit(r: &mut Random, grouping: Grouping) -> (Request, Labels) {
    (Request { grouping, ..random_request(r) }, random_labels(r, true))
}

fn random_request(r: &mut Random) -> Request {
    Request { aggregate: r.pick(&Aggregate::ALL), grouping: r.pick(&Grouping::ALL), list: random_list(r) }
}

/// Unsorted and with repetitions, 0 to 32 labels; past sixteen the Rust searches a set.
fn random_list(r: &mut Random) -> Vec<Vec<u8>> {
    let n = match r.below(12) {
        0 => 32,
        1 => 4 + r.below(29),
        _ => r.below(4),
    };
    (0..n).map(|_| if r.one_in(40) { vec![b'l'; 255] } else { r.pick(&LISTED).to_vec() }).collect()
}

fn random_vector(r: &mut Random, extent: Extent, utf8: bool) -> Vector {
    let (n, p) = match extent {
        Extent::Small if r.one_in(16) => (0, r.below(5)),
        Extent::Small if r.one_in(10) => (8 + r.below(32), r.below(7)),
        Extent::Small => (1 + r.below(8), r.pick(&[0, 1, 1, 2, 3, 4, 6])),
        Extent::Long => (r.pick(&[1, 3, 8, 40]), r.pick(&[64, 200, 1023, 1024])),
        Extent::Wide => (r.pick(&[40, 150, 400, 511, 512]), r.below(5)),
        Extent::Full => (MAX_SERIES - r.below(2), MAX_POINTS - r.below(2)),
    };
    // Few labels, so that totals form.
    let pool: Vec<Labels> = (0..1 + r.below(4)).map(|_| random_labels(r, utf8)).collect();
    let numbers = r.pick(&[1, 2, 16, 1 + 2 * n]);
    let drawn = r.pick(&DRAWN);
    let present = r.pick(&[1, 2, 3, 4, 4]);
    let without_any: Vec<bool> = (0..p).map(|_| r.one_in(8)).collect();
    let series = (0..n).map(|_| {
        let mut labels = labels_near(r, &pool, utf8);
        if matches!(extent, Extent::Wide | Extent::Full) {
            put_number(&mut labels, r.below(numbers));
        }
        let only_missing = r.one_in(8);
        let reading = |at: usize| {
            if only_missing || without_any[at] || r.below(4) >= present {
                missing(r)
            } else {
                random_reading(r, drawn)
            }
        };
        Series { labels, row: (0..p).map(reading).collect() }
    });
    let series = series.collect();
    Vector { points: p, grid: random_grid(r), series }
}

fn random_reading(r: &mut Random, drawn: Drawn) -> u64 {
    match drawn {
        Drawn::Counts => (r.below(9) as f64 - 2.0).to_bits(),
        Drawn::Tenths => ((r.below(4001) as f64 - 2000.0) / 10.0).to_bits(),
        Drawn::Zeros => r.pick(&[0.0f64, 0.0, -0.0, -0.0, -0.0, 1.0, -1.0]).to_bits(),
        Drawn::Ends => r.pick(&[f64::INFINITY, f64::NEG_INFINITY, f64::MAX, f64::MAX, f64::MIN, 1.0]).to_bits(),
        Drawn::Special => r.pick(&READINGS),
        Drawn::AnyBits => r.word(),
    }
}

/// Every aggregate, both groupings and some lists over small vectors of every kind of label.
pub fn all_labels(visit: &mut dyn FnMut(&Request, &Vector)) {
    let lists: [&[&[u8]]; 11] = [
        &[],
        &[b"a"],
        &[b"b"],
        &[NAME],
        &[NAME, b"a"],
        &[b"b", NAME, b"b"],
        &[b"*"],
        &[b"*", b"a"],
        &[b"z"],
        &[b"a", b"a", b"b", b"z"],
        &[LISTED[1]; 32],
    ];
    let mut vectors = label_sides();
    // The name alone tells series apart, or the tag `*`, or whether a tag is empty or none.
    let one =
        |name: &[u8], tags: &[(&[u8], &[u8])], value: f64| Series { labels: labels(name, tags), row: vec![value.to_bits(); 2] };
    vectors.push(Vector::hourly(2, vec![one(b"m", &[], 1.0), one(b"n", &[], 2.0), one(b"", &[], 4.0), one(b"m", &[], 8.0)]));
    vectors.push(Vector::hourly(2, vec![one(b"", &[(b"*", b"x")], 1.0), one(b"", &[(b"*", b"y")], 2.0), one(b"", &[], 4.0)]));
    vectors.push(Vector::hourly(2, vec![one(b"", &[(b"a", b"")], 1.0), one(b"", &[], 2.0), one(b"", &[(b"b", b"")], 4.0)]));
    vectors.push(Vector::hourly(2, vec![one(b"a", &[], 1.0), one(b"", &[(b"a", b"a")], 2.0), one(b"", &[(b"b", b"a")], 4.0)]));
    for aggregate in Aggregate::ALL {
        for grouping in Grouping::ALL {
            for list in lists {
                let request = Request { aggregate, grouping, list: list.iter().map(|l| l.to_vec()).collect() };
                for vector in &vectors {
                    visit(&request, vector);
                }
            }
        }
    }
}

pub fn all_labels_called(visit: &mut dyn FnMut(AggregateCall)) {
    all_labels(&mut |request, vector| visit(roomy(request, vector)));
}

/// Every aggregate on every three of `READINGS` in every order: two rows of one reading each, and one of all.
pub fn all_readings(visit: &mut dyn FnMut(AggregateCall)) {
    let p = READINGS.len();
    for aggregate in Aggregate::ALL {
        let request = Request { aggregate, grouping: Grouping::By, list: vec![] };
        for first in READINGS {
            for second in READINGS {
                let rows = [vec![first; p], vec![second; p], READINGS.to_vec()];
                let series = rows.map(|row| Series { labels: labels(b"", &[]), row });
                visit(roomy(&request, &Vector::hourly(p, series.to_vec())));
            }
        }
    }
}

/// Requests with every first byte, every second, every number of labels and every length of a label; good ones cut at every byte
/// and with bytes behind them: over a good vector, over two that have a fault, and into output parts that are too short, which all
/// come after every fault of a request.
pub fn requests(visit: &mut dyn FnMut(AggregateCall)) {
    let one = |name: &[u8], value: f64| Series { labels: labels(name, &[(b"a", b"x")]), row: vec![value.to_bits()] };
    let good = roomy(
        &Request { aggregate: Aggregate::Sum, grouping: Grouping::By, list: vec![] },
        &Vector::hourly(1, vec![one(b"m", 1.0), one(b"n", 2.0)]),
    );
    let cut = AggregateCall { labels: good.labels[..SIZES - 1].to_vec(), ..good.clone() };
    let mut off_grid = good.clone();
    damage::put_grid(&mut off_grid.labels, Grid { start: 0, step: 0 });
    let shorter = AggregateCall { room: Room { labels: 0, readings: 0 }, ..good.clone() };
    for c in [good, cut, off_grid, shorter] {
        let mut put = |request: &[u8]| visit(AggregateCall { request: request.to_vec(), ..c.clone() });
        put(&[]);
        for first in 0..=255 {
            for rest in
                [&b""[..], b"\0", b"\x01", b"\x02", b"\0\0", b"\x01\x01\x01a", b"\xff\0", b"\0\0\0", b"\0\x21", b"\0\x01\0"]
            {
                put(&[&[first], rest].concat());
            }
            // As the second byte, and as the number of labels: as many, one fewer, one more.
            for aggregate in [0, 4, 5] {
                put(&[aggregate, first, 0]);
                put(&[aggregate, first, 1, 1, b'a']);
                put(&[aggregate, first]);
                for labels in [usize::from(first), usize::from(first).saturating_sub(1), usize::from(first) + 1] {
                    put(&[&[aggregate, 1, first], &b"\x01a".repeat(labels)[..]].concat());
                }
            }
            // As a label's length, with so many bytes, one fewer and one more.
            for length in [usize::from(first), usize::from(first).saturating_sub(1), usize::from(first) + 1] {
                put(&[&[2, 0, 1, first], &b"a".repeat(length)[..]].concat());
                put(&[&[2, 0, 2, 1, b'a', first], &b"b".repeat(length)[..]].concat());
            }
        }
        for whole in [&b"\0\0\0"[..], b"\x01\x01\x01\x01a", b"\x04\0\x03\x01a\x08__name__\x01*", b"\x03\x01\x02\x03abc\x01a"] {
            for end in 0..whole.len() {
                put(&whole[..end]);
                put(&[&[5], &whole[..end]].concat());
            }
            for behind in [&b"\0"[..], b"\x01", b"\x01a", &[0; 40]] {
                put(&[whole, behind].concat());
            }
        }
    }
}

/// One to four bytes changed anywhere in request and label part, and a reading more or fewer: which fault comes first is the
/// point.
pub fn changed_bytes(r: &mut Random) -> AggregateCall {
    let (request, utf8) = (random_request(r), r.one_in(2));
    let mut c = roomy(&request, &random_vector(r, Extent::Small, utf8));
    for _ in 0..1 + r.below(4) {
        let part = if r.one_in(2) { &mut c.request } else { &mut c.labels };
        let head = r.pick(&[3, SIZES]);
        let at = if r.one_in(2) { r.below(part.len().min(head)) } else { r.below(part.len()) };
        part[at] = match r.below(4) {
            0 => r.word() as u8,
            1 => part[at].wrapping_add(1),
            2 => part[at].wrapping_sub(1),
            _ => r.pick(&[0, 1, 2, 4, 5, 18, 32, 33, 255]),
        };
        if r.one_in(8) {
            c.readings.push(0);
        }
        if r.one_in(8) {
            c.readings.pop();
        }
        if r.one_in(8) {
            c.request.push(r.word() as u8);
        }
    }
    c
}

/// The sides of the cases of `damage`, each as the vector of an aggregate: parts cut at every length or too long, bytes changed, bad
/// keys, grids out of range.
pub fn damaged(r: &mut Random, n: usize, visit: &mut dyn FnMut(AggregateCall)) {
    let mut own = Random::new(r.word());
    // Most of these cases leave one side as it was in the case before.
    let mut before = [(vec![], vec![]), (vec![], vec![])];
    let mut sides = |c: Call| {
        let both = [(c.left_labels, c.left), (c.right_labels, c.right)];
        for ((labels, readings), _) in both.iter().zip(&before).filter(|(side, before)| side != before) {
            let mut request = random_request(&mut own).bytes();
            if own.one_in(16) {
                request.pop();
            }
            visit(AggregateCall { request, labels: labels.clone(), readings: readings.clone(), room: c.room });
        }
        before = both;
    };
    damage::cuts(r, n.div_ceil(50), &mut sides);
    for _ in 0..n {
        damage::changed_bytes(r, &mut sides);
        damage::bad_keys(r, &mut sides);
        damage::grids(r, &mut sides);
    }
    damage::grid_borders(&mut sides);
}

/// Output parts of every length from two short of the answer's to two more, in labels and in readings, and none.
pub fn rooms(r: &mut Random, visit: &mut dyn FnMut(AggregateCall)) {
    let request = random_request(r);
    let mut c = roomy(&request, &random_vector(r, Extent::Small, true));
    let (labels, readings) = reference::aggregate(&c).map_or((4, 4), |a| (a.labels.len(), a.readings.len()));
    let near = |n: usize| n.saturating_sub(2)..=n + 2;
    for labels in near(labels).chain([0]) {
        for readings in near(readings).chain([0]) {
            c.room = Room { labels, readings };
            visit(c.clone());
        }
    }
}

/// The limits of what is taken and so of what is answered: 512 series of 1,024 points in one total, in sixteen and in as many
/// totals; 65,535 label bytes; 32 tags with 32 listed; names, keys, values and labels of 255 bytes; and one beyond each.
pub fn limits(visit: &mut dyn FnMut(AggregateCall)) {
    let request =
        |aggregate, grouping, list: &[&[u8]]| Request { aggregate, grouping, list: list.iter().map(|l| l.to_vec()).collect() };
    for totals in [1, 16, MAX_SERIES] {
        let numbered = |i: usize| {
            let tags =
                [(i % totals, b"k"), (i, b"s")].map(|(n, key)| Tag { key: key.to_vec(), value: n.to_string().into_bytes() });
            Series { labels: Labels { name: vec![], tags: tags.to_vec() }, row: vec![(i as f64 / 10.0).to_bits(); MAX_POINTS] }
        };
        let vector = Vector::hourly(MAX_POINTS, (0..MAX_SERIES).map(numbered).collect());
        for aggregate in Aggregate::ALL {
            visit(roomy(&request(aggregate, Grouping::By, &[b"k"]), &vector));
            visit(roomy(&request(aggregate, Grouping::Without, &[b"s"]), &vector));
        }
    }
    // Records of 128 bytes, a name of 3 and a tag, but for the last.
    for bytes in [65_534, 65_535, 65_536] {
        let value = |i: usize| vec![b'v'; if i + 1 == MAX_SERIES { 120 + bytes - 65_536 } else { 120 }];
        let one = |i: usize| {
            let tags = vec![Tag { key: b"k".to_vec(), value: value(i) }];
            Series { labels: Labels { name: format!("{i:03}").into_bytes(), tags }, row: vec![0] }
        };
        let vector = Vector::hourly(1, (0..MAX_SERIES).map(one).collect());
        visit(roomy(&request(Aggregate::Sum, Grouping::By, &[b"k", NAME]), &vector));
        visit(roomy(&request(Aggregate::Avg, Grouping::Without, &[]), &vector));
    }
    for tags in [31, 32, 33] {
        let keys: Vec<Vec<u8>> = (0..tags).map(|i| format!("k{i:02}").into_bytes()).collect();
        let tagged = |width: usize| {
            let tags = keys.iter().map(|key| Tag { key: key.clone(), value: vec![b'v'; width] }).collect();
            Series { labels: Labels { name: vec![b'n'; 255], tags }, row: vec![0] }
        };
        for listed in [0, 1, 31, 32, 33] {
            let list: Vec<&[u8]> = keys.iter().map(Vec::as_slice).cycle().take(listed).collect();
            for grouping in Grouping::ALL {
                visit(roomy(&request(Aggregate::Count, grouping, &list), &Vector::hourly(1, vec![tagged(255), tagged(0)])));
            }
        }
    }
    let long = [vec![b'k'; 254], vec![b'k'; 255], [vec![b'k'; 254], vec![b'l']].concat()];
    let tags: Vec<Tag> = long.iter().map(|key| Tag { key: key.clone(), value: key.clone() }).collect();
    let vector = Vector::hourly(0, vec![Series { labels: Labels { name: vec![], tags }, row: vec![] }]);
    for key in &long {
        for grouping in Grouping::ALL {
            visit(roomy(&request(Aggregate::Min, grouping, &[key]), &vector));
        }
    }
}
