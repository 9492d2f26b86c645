//! Cases: random ones from a seed, and small ones in full.
use reference::{Call, Grid, Join, Labels, Matching, Operator, Query, Room, Series, Tag, Vector};
use reference::{ALLOWANCE, MAX_START, MAX_STEP, MISSING, NAME};

use crate::random::Random;

pub const CARRIED: [Operator; 17] = {
    use Operator::*;
    [Add, And, Default, Div, Eql, Mod, Mul, Sub, Gt, Gte, If, IfNot, Lt, Lte, NotEq, Or, Unless]
};
pub const MATCHINGS: [Matching; 3] = [Matching::None, Matching::On, Matching::Ignoring];
pub const JOINS: [Join; 4] = [Join::OneToOne, Join::GroupLeft, Join::GroupRight, Join::ManyToMany];

const NAMES: [&[u8]; 3] = [b"", b"m", b"n"];
/// Keys, and in how many of twelve series each stands.
const KEYS: [(&[u8], usize); 5] = [(b"a", 8), (b"b", 8), (b"c", 8), (b"xb", 3), (b"*", 1)];
const VALUES: [&[u8]; 5] = [b"", b"x", b"y", b"xb", "\u{e9}".as_bytes()];
pub const LISTED: [&[u8]; 7] = [b"a", b"b", b"c", b"xb", b"z", b"*", NAME];

/// Values at which operators turn: zeros, ones, halves, the ends of the range, infinities, and missing ones of several patterns.
pub const READINGS: [u64; 24] = [
    0x0000_0000_0000_0000,
    0x8000_0000_0000_0000,
    0x3ff0_0000_0000_0000, // 1
    0xbff0_0000_0000_0000, // -1
    0x3fe0_0000_0000_0000, // 0.5
    0x4000_0000_0000_0000, // 2
    0x4008_0000_0000_0000, // 3
    0xc018_0000_0000_0000, // -6
    0x3fb9_9999_9999_999a, // 0.1
    0x0000_0000_0000_0001, // the smallest
    0x800f_ffff_ffff_ffff,
    0x0010_0000_0000_0000,
    0x7fef_ffff_ffff_ffff, // the largest
    0xffef_ffff_ffff_ffff,
    0x4340_0000_0000_0000, // 2^53
    0x4340_0000_0000_0001,
    0x3ff0_0000_0000_0001,
    0x7ff0_0000_0000_0000, // infinity
    0xfff0_0000_0000_0000,
    MISSING,
    0xfff8_0000_0000_0000,
    0x7ff8_0000_0000_0001,
    0x7ff0_0000_0000_0001, // signalling
    0xffff_ffff_ffff_ffff,
];

/// Starts and steps at the ends of their ranges, and some that people have: 2026-03-02, quarters of an hour, hours.
const STARTS: [u64; 7] = [0, 1, 1 << 32, 1_772_409_600_000, 1_772_431_200_000, MAX_START - 1, MAX_START];
const STEPS: [u32; 7] = [1, 2, 1_000, 900_000, 3_600_000, MAX_STEP - 1, MAX_STEP];

pub const ROOM: Room = Room { labels: 65_535, readings: 8_192 };

pub fn call(query: &Query, left: &Vector, right: &Vector, room: Room) -> Call {
    let (left_labels, left) = left.parts();
    let (right_labels, right) = right.parts();
    Call { query: query.bytes(), left_labels, left, right_labels, right, room }
}

pub fn labels(name: &[u8], tags: &[(&[u8], &[u8])]) -> Labels {
    let tags = tags.iter().map(|(k, v)| Tag { key: k.to_vec(), value: v.to_vec() }).collect();
    Labels { name: name.to_vec(), tags }
}

pub fn plain(op: Operator) -> Query {
    Query {
        op,
        matching: Matching::None,
        join: Join::OneToOne,
        keep_names: false,
        bool_flag: false,
        matching_list: vec![],
        join_list: vec![],
        allowance: ALLOWANCE,
    }
}

/// How long rows and lists of series a random case may have.
#[derive(Clone, Copy, PartialEq, Eq)]
pub enum Extent {
    /// p to 6, some dozens at times.
    Small,
    /// p to 1,024.
    Long,
    /// Up to 512 series of few points, with keys that repeat some times.
    Wide,
    /// p to 4, up to 4 series a side: for the stored sample.
    Tiny,
}

/// A random case of any operator, matching, join and flag, with the allowance that the Rust has. `utf8` keeps labels to UTF-8.
pub fn random(r: &mut Random, op: Operator, extent: Extent, utf8: bool) -> Call {
    let query = random_query(r, op, extent);
    let p = match extent {
        // Merges need three points.
        Extent::Tiny => r.pick(&[0, 1, 2, 3, 3, 3, 4, 4, 4]),
        Extent::Small if r.one_in(12) => 7 + r.below(30),
        Extent::Small => r.pick(&[0, 1, 2, 3, 3, 3, 4, 4, 4, 5, 5, 6, 6]),
        Extent::Long => r.pick(&[64, 200, 1023, 1024]),
        Extent::Wide => r.below(5),
    };
    // The sides draw on the same few labels, so that keys meet.
    let pool: Vec<Labels> = (0..1 + r.below(3)).map(|_| random_labels(r, utf8)).collect();
    let mut left = random_vector(r, p, &pool, extent, utf8);
    let mut right = random_vector(r, p, &pool, extent, utf8);
    // The fallback, and what is nearly it: one series without tags, with or without a name.
    if r.one_in(8) {
        right.series.truncate(1);
        if let [only] = right.series.as_mut_slice() {
            only.labels = labels(r.pick(&[b"".as_slice(), b"", b"m"]), &[]);
        }
    }
    left.grid = random_grid(r);
    right.grid = if r.one_in(24) { other_grid(r, left.grid) } else { left.grid };
    // Mostly one many-side series a key, as the runs against the Rust admit.
    if !r.one_in(4) {
        match query.join {
            Join::GroupLeft => first_of_keys(&query, &mut left),
            Join::GroupRight => first_of_keys(&query, &mut right),
            _ => {}
        }
    }
    call(&query, &left, &right, ROOM)
}

/// A random case of any operator under this allowance.
pub fn allowing(r: &mut Random, allowance: usize) -> Call {
    let op = r.pick(&CARRIED);
    let mut c = random(r, op, Extent::Small, true);
    *c.query.last_mut().expect("an allowance") = allowance as u8;
    c
}

/// A grid in its ranges.
pub fn random_grid(r: &mut Random) -> Grid {
    Grid {
        start: if r.one_in(2) { r.pick(&STARTS) } else { r.word() % (MAX_START + 1) },
        step: if r.one_in(2) { r.pick(&STEPS) } else { 1 + r.below(MAX_STEP as usize) as u32 },
    }
}

/// Another grid in its ranges, that differs by its start, by its step or by both.
pub fn other_grid(r: &mut Random, grid: Grid) -> Grid {
    loop {
        let (near, far) = (1 + r.below(2), random_grid(r));
        let other = match r.below(5) {
            0 => Grid { start: grid.start.wrapping_add(2 * near as u64).wrapping_sub(3), ..grid },
            1 => Grid { step: grid.step.wrapping_add(2 * near as u32).wrapping_sub(3), ..grid },
            2 => Grid { start: far.start, ..grid },
            3 => Grid { step: far.step, ..grid },
            _ => far,
        };
        if other.is_in_range() && other != grid {
            return other;
        }
    }
}

fn first_of_keys(query: &Query, vector: &mut Vector) {
    let mut seen = Vec::new();
    vector.series.retain(|s| {
        let key = s.labels.key(query);
        let new = !seen.contains(&key);
        seen.push(key);
        new
    });
}

fn random_query(r: &mut Random, op: Operator, extent: Extent) -> Query {
    let matching = r.pick(&MATCHINGS);
    let join = r.pick(&JOINS);
    let matching_list = if matching == Matching::None { vec![] } else { random_list(r, extent) };
    let join_list = match join {
        Join::GroupLeft | Join::GroupRight if r.one_in(3) => vec![b"*".to_vec()],
        Join::GroupLeft | Join::GroupRight => random_list(r, extent),
        _ => vec![],
    };
    let (keep_names, bool_flag) = (r.one_in(2), r.one_in(2));
    Query { op, matching, join, keep_names, bool_flag, matching_list, join_list, allowance: ALLOWANCE }
}

/// Unsorted and with repetitions; past sixteen labels the Rust searches a set.
fn random_list(r: &mut Random, extent: Extent) -> Vec<Vec<u8>> {
    let n = if extent != Extent::Tiny && r.one_in(20) { 15 + r.below(18) } else { r.below(4) };
    (0..n).map(|_| r.pick(&LISTED).to_vec()).collect()
}

pub fn random_labels(r: &mut Random, utf8: bool) -> Labels {
    let name = if !utf8 && r.one_in(4) { vec![r.word() as u8, 0xff] } else { r.pick(&NAMES).to_vec() };
    let mut tags: Vec<Tag> = Vec::new();
    for (key, often) in KEYS {
        if r.below(12) < often {
            // Few values, so that keys meet.
            let value = if r.one_in(3) { r.pick(&VALUES).to_vec() } else { b"x".to_vec() };
            tags.push(Tag { key: key.to_vec(), value });
        }
    }
    if !utf8 && r.one_in(2) {
        tags.push(Tag { key: vec![0x80 + r.below(0x80) as u8], value: vec![r.word() as u8; r.below(4)] });
    }
    tags.sort();
    Labels { name, tags }
}

fn random_vector(r: &mut Random, p: usize, pool: &[Labels], extent: Extent, utf8: bool) -> Vector {
    let n = match extent {
        _ if r.one_in(16) => 0,
        Extent::Tiny => 1 + r.below(4),
        Extent::Small if r.one_in(10) => 8 + r.below(8),
        Extent::Small => 1 + r.below(6),
        Extent::Long => r.pick(&[1, 1, 3, 7]),
        Extent::Wide => r.pick(&[40, 150, 400, 511, 512]),
    };
    let numbers = 1 + r.below(2 * n + 1);
    let odd = r.one_in(3);
    let mut series: Vec<Series> = (0..n)
        .map(|_| {
            let mut labels = labels_near(r, pool, utf8);
            if extent == Extent::Wide {
                put_number(&mut labels, r.below(numbers));
            }
            let row = (0..p).map(|_| random_reading(r, odd)).collect();
            Series { labels, row }
        })
        .collect();
    gaps(r, &mut series, p);
    Vector::hourly(p, series)
}

/// Labels of the pool, mostly as they are, or with another name, a tag less or another value.
pub fn labels_near(r: &mut Random, pool: &[Labels], utf8: bool) -> Labels {
    let mut labels = if r.one_in(6) { random_labels(r, utf8) } else { r.pick(pool) };
    if r.one_in(3) {
        labels.name = r.pick(&NAMES).to_vec();
    }
    if r.one_in(4) && !labels.tags.is_empty() {
        let at = r.below(labels.tags.len());
        if r.one_in(2) {
            labels.tags.remove(at);
        } else {
            labels.tags[at].value = r.pick(&VALUES).to_vec();
        }
    }
    labels
}

/// A tag more, with a number.
pub fn put_number(labels: &mut Labels, number: usize) {
    labels.tags.insert(0, Tag { key: b"!".to_vec(), value: number.to_string().into_bytes() });
    labels.tags.sort();
}

fn random_reading(r: &mut Random, odd: bool) -> u64 {
    if odd && r.one_in(2) {
        return r.pick(&READINGS);
    }
    if odd && r.one_in(4) {
        return r.word();
    }
    (r.below(9) as f64 - 2.0).to_bits()
}

/// A missing reading, now and then of another pattern than rules write.
pub fn missing(r: &mut Random) -> u64 {
    if r.one_in(4) {
        r.pick(&READINGS[19..])
    } else {
        MISSING
    }
}

/// Gaps at random, whole rows missing, or each point dealt to one series with 0 to 4 overlaps besides, so that merges succeed
/// about as often as they fail.
fn gaps(r: &mut Random, series: &mut [Series], p: usize) {
    let n = series.len();
    if n == 0 {
        return;
    }
    match r.below(4) {
        0 => {
            let density = 1 + r.below(4);
            for s in series.iter_mut() {
                for i in 0..p {
                    if r.below(4) >= density {
                        s.row[i] = missing(r);
                    }
                }
            }
        }
        1 | 2 => {
            let owners: Vec<usize> = (0..p).map(|_| r.below(n)).collect();
            let mut kept: Vec<(usize, usize)> = owners.iter().enumerate().map(|(i, o)| (*o, i)).collect();
            if p > 0 {
                for _ in 0..r.below(5) {
                    kept.push((r.below(n), r.below(p)));
                }
            }
            for (o, s) in series.iter_mut().enumerate() {
                for i in 0..p {
                    if !kept.contains(&(o, i)) {
                        s.row[i] = missing(r);
                    }
                }
            }
        }
        _ => {}
    }
    for s in series.iter_mut() {
        if r.one_in(8) {
            s.row.iter_mut().for_each(|v| *v = missing(r));
        }
    }
}

/// Every operator and flag on every pair of `READINGS`, a row a left reading.
pub fn all_readings(visit: &mut dyn FnMut(Call)) {
    let p = READINGS.len();
    for op in CARRIED {
        for bool_flag in [false, true] {
            for left in READINGS {
                let side = |row| Vector::hourly(p, vec![Series { labels: labels(b"m", &[(b"a", b"x")]), row }]);
                let query = Query { bool_flag, ..plain(op) };
                visit(call(&query, &side(vec![left; p]), &side(READINGS.to_vec()), ROOM));
            }
        }
    }
}

/// Every gap pattern of two rows of one key with p of 0 to 5, and of three with p of 3, to be merged on the left, on the right,
/// or on the one side of either join, under an arithmetic operator and a comparison, and under this allowance.
pub fn all_merges(allowance: usize, visit: &mut dyn FnMut(Call)) {
    let row = |p: usize, pattern: usize, first: usize| -> Vec<u64> {
        (0..p).map(|i| if pattern >> i & 1 == 1 { ((first + i) as f64).to_bits() } else { MISSING }).collect()
    };
    for (series, points) in [(2, 0), (2, 1), (2, 2), (2, 3), (2, 4), (2, 5), (3, 3)] {
        for patterns in 0..1usize << (series * points) {
            let several: Vec<Series> = (0..series)
                .map(|k| Series {
                    labels: labels(&[b'm' + k as u8], &[(b"a", b"x")]),
                    row: row(points, patterns >> (k * points), 10 * (k + 1)),
                })
                .collect();
            let several = Vector::hourly(points, several);
            let one = Vector::hourly(points, vec![Series { labels: labels(b"", &[(b"a", b"x")]), row: row(points, !0, 1) }]);
            for op in [Operator::Sub, Operator::Lt] {
                for join in JOINS {
                    let query = Query { join, allowance, ..plain(op) };
                    visit(call(&query, &several, &one, ROOM));
                    visit(call(&query, &one, &several, ROOM));
                }
            }
        }
    }
}

/// Small sides of every kind of label under every operator, matching, join and flag, with `__name__`, `*` and repeated labels
/// in the lists; every `step`-th case, from the `first`.
pub fn all_labels(first: usize, step: usize, visit: &mut dyn FnMut(Call)) {
    let sides = label_sides();
    let one = |l: &[u8]| vec![l.to_vec()];
    let matchings = [
        (Matching::None, vec![]),
        (Matching::On, vec![]),
        (Matching::On, one(b"a")),
        (Matching::On, vec![NAME.to_vec(), b"a".to_vec()]),
        (Matching::Ignoring, vec![]),
        (Matching::Ignoring, one(b"b")),
        (Matching::Ignoring, vec![b"b".to_vec(), NAME.to_vec(), b"b".to_vec()]),
    ];
    let lists = [vec![], one(b"b"), one(b"*"), vec![NAME.to_vec(), b"a".to_vec(), b"*".to_vec()]];
    let mut joins = vec![(Join::OneToOne, vec![]), (Join::ManyToMany, vec![])];
    for list in lists {
        joins.push((Join::GroupLeft, list.clone()));
        joins.push((Join::GroupRight, list));
    }
    let mut count = 0;
    for op in CARRIED {
        for (matching, matching_list) in &matchings {
            for (join, join_list) in &joins {
                for flags in 0..4 {
                    let query = Query {
                        op,
                        matching: *matching,
                        join: *join,
                        keep_names: flags & 1 != 0,
                        bool_flag: flags & 2 != 0,
                        matching_list: matching_list.clone(),
                        join_list: join_list.clone(),
                        allowance: ALLOWANCE,
                    };
                    for left in &sides {
                        for right in &sides {
                            if count % step == first {
                                visit(call(&query, left, right, ROOM));
                            }
                            count += 1;
                        }
                    }
                }
            }
        }
    }
}

pub fn label_sides() -> Vec<Vector> {
    let all: [Labels; 7] = [
        labels(b"", &[]),
        labels(b"m", &[]),
        labels(b"", &[(b"a", b"x")]),
        labels(b"m", &[(b"a", b"x")]),
        labels(b"n", &[(b"a", b"x"), (b"b", b"")]),
        labels(b"", &[(b"a", b""), (b"b", b"y")]),
        labels(b"m", &[(b"b", b"y")]),
    ];
    let rows = [[1.0, f64::NAN, 3.0], [f64::NAN, 5.0, f64::NAN], [7.0, 2.0, 7.0]];
    let bits = |k: usize| rows[k].iter().map(|v: &f64| if v.is_nan() { MISSING } else { v.to_bits() }).collect();
    let side = |places: &[usize]| {
        let series = places.iter().enumerate().map(|(k, i)| Series { labels: all[*i].clone(), row: bits(k) }).collect();
        Vector::hourly(3, series)
    };
    let mut sides = vec![side(&[])];
    sides.extend((0..all.len()).map(|i| side(&[i])));
    for pair in [[0, 2], [1, 0], [2, 3], [3, 4], [4, 5], [5, 6], [6, 2]] {
        sides.push(side(&pair));
    }
    sides.push(side(&[2, 3, 4]));
    sides.push(side(&[5, 6, 5]));
    sides
}
