//! Cases at and beyond the edges: damaged inputs of every kind, limits, and lent parts of every length. The Rust takes no bytes,
//! so these are for the reference and the library alone.
use reference::{call as reference_call, Call, Grid, Join, Labels, Matching, Operator, Query, Room, Series, Tag, Vector};
use reference::{MAX_START, MAX_STEP, MISSING, NAME, SIZES};

use crate::cases::{call, plain, random, random_grid, Extent, CARRIED, ROOM};
use crate::random::Random;

/// A case to be damaged: small, with some tags on either side.
fn whole(r: &mut Random) -> Call {
    let op = r.pick(&CARRIED);
    let utf8 = r.one_in(2);
    random(r, op, Extent::Tiny, utf8)
}

/// Each part cut at every length, and with a byte or a reading too many.
pub fn cuts(r: &mut Random, rounds: usize, visit: &mut dyn FnMut(Call)) {
    for _ in 0..rounds {
        let c = whole(r);
        for k in 0..c.query.len() {
            visit(Call { query: c.query[..k].to_vec(), ..c.clone() });
        }
        for k in 0..c.left_labels.len() {
            visit(Call { left_labels: c.left_labels[..k].to_vec(), ..c.clone() });
            visit(Call { left_labels: restated(&c.left_labels, k), ..c.clone() });
        }
        for k in 0..c.right_labels.len() {
            visit(Call { right_labels: c.right_labels[..k].to_vec(), ..c.clone() });
            visit(Call { right_labels: restated(&c.right_labels, k), ..c.clone() });
        }
        for k in 0..c.left.len() {
            visit(Call { left: c.left[..k].to_vec(), ..c.clone() });
        }
        for k in 0..c.right.len() {
            visit(Call { right: c.right[..k].to_vec(), ..c.clone() });
        }
        visit(Call { query: [c.query.as_slice(), &[0]].concat(), ..c.clone() });
        visit(Call { left_labels: [c.left_labels.as_slice(), &[0]].concat(), ..c.clone() });
        visit(Call {
            right_labels: restated(&[c.right_labels.as_slice(), &[0]].concat(), c.right_labels.len() + 1),
            ..c.clone()
        });
        visit(Call { left: [c.left.as_slice(), &[0]].concat(), ..c.clone() });
        visit(Call { right: [c.right.as_slice(), &[0]].concat(), ..c });
    }
}

/// The first `k` bytes, with the array's stated length to suit, so that the cut falls within a record.
fn restated(part: &[u8], k: usize) -> Vec<u8> {
    let mut out = part[..k].to_vec();
    if k >= SIZES {
        out[4..6].copy_from_slice(&((k - SIZES) as u16).to_le_bytes());
    }
    out
}

/// Puts a grid in the place of a label part's.
pub fn put_grid(part: &mut [u8], grid: Grid) {
    part[6..14].copy_from_slice(&grid.start.to_le_bytes());
    part[14..SIZES].copy_from_slice(&grid.step.to_le_bytes());
}

/// One to four bytes changed anywhere, lengths and sizes with them, in one part or several: which fault comes first is the point.
pub fn changed_bytes(r: &mut Random, visit: &mut dyn FnMut(Call)) {
    let mut c = whole(r);
    for _ in 0..1 + r.below(4) {
        let part = match r.below(3) {
            0 => &mut c.query,
            1 => &mut c.left_labels,
            _ => &mut c.right_labels,
        };
        if part.is_empty() {
            continue;
        }
        let head = r.pick(&[8, SIZES]);
        let at = if r.one_in(2) { r.below(part.len().min(head)) } else { r.below(part.len()) };
        part[at] = match r.below(4) {
            0 => r.word() as u8,
            1 => part[at].wrapping_add(1),
            2 => part[at].wrapping_sub(1),
            _ => r.pick(&[0, 1, 2, 3, 4, 8, 18, 19, 32, 33, 255]),
        };
        if r.one_in(6) {
            c.left.push(0);
        }
        if r.one_in(6) {
            c.right.pop();
        }
    }
    visit(c);
}

/// Keys that are empty, `__name__`, repeated or out of order, in any record of either side, with a cut behind them at times.
pub fn bad_keys(r: &mut Random, visit: &mut dyn FnMut(Call)) {
    let sides: Vec<Vector> = (0..2)
        .map(|_| {
            let series = (0..1 + r.below(3))
                .map(|_| {
                    let keys: [&[u8]; 5] = [b"a", b"b", b"", NAME, b"c"];
                    let tag = |k: &[u8]| Tag { key: k.to_vec(), value: b"v".to_vec() };
                    let tags = (0..r.below(4)).map(|_| tag(keys[r.below(5)])).collect();
                    Series { labels: Labels { name: vec![], tags }, row: vec![0] }
                })
                .collect();
            Vector::hourly(1, series)
        })
        .collect();
    let mut c = call(&plain(r.pick(&CARRIED)), &sides[0], &sides[1], ROOM);
    if r.one_in(3) {
        let k = r.below(c.left_labels.len() + 1);
        c.left_labels = restated(&c.left_labels, k);
    }
    if r.one_in(3) {
        let k = r.below(c.right_labels.len() + 1);
        c.right_labels = restated(&c.right_labels, k);
    }
    visit(c);
}

/// Grids at the ends of their ranges, beyond them, or in them, mostly the same on both sides, with another fault beside them at
/// times: which comes first is the point.
pub fn grids(r: &mut Random, visit: &mut dyn FnMut(Call)) {
    let mut c = whole(r);
    let grid = edge_grid(r);
    for part in [&mut c.left_labels, &mut c.right_labels] {
        put_grid(part, if r.one_in(4) { edge_grid(r) } else { grid });
    }
    let left = r.one_in(2);
    let (part, readings) = if left { (&mut c.left_labels, &mut c.left) } else { (&mut c.right_labels, &mut c.right) };
    match r.below(16) {
        0 => part.truncate(r.below(SIZES + 1)),
        1 => part[..2].copy_from_slice(&r.pick(&[513u16, 65_535]).to_le_bytes()),
        2 => part[2..4].copy_from_slice(&r.pick(&[1_025u16, 65_535]).to_le_bytes()),
        3 => part.push(0),
        4 => part[4] ^= 1,
        5 => readings.push(0),
        6 => part[2] ^= 1,
        7 => c.query.push(0),
        _ => {}
    }
    visit(c);
}

fn edge_grid(r: &mut Random) -> Grid {
    let mut grid = random_grid(r);
    if r.one_in(3) {
        grid.start = r.pick(&[0, MAX_START, MAX_START + 1, 2 * MAX_START, 1 << 63, u64::MAX]);
    }
    if r.one_in(3) {
        grid.step = r.pick(&[0, 1, MAX_STEP, MAX_STEP + 1, 1 << 31, u32::MAX]);
    }
    grid
}

/// Every border of start and step on the left side with every border on the right, on sides with and without series and points:
/// 11 for each side, and 12 for every two good grids that differ, empty sides included.
pub fn grid_borders(visit: &mut dyn FnMut(Call)) {
    let starts = [0, 1, MAX_START - 1, MAX_START, MAX_START + 1, u64::MAX];
    let steps = [0, 1, 2, MAX_STEP, MAX_STEP + 1, u32::MAX];
    let grids = starts.map(|start| steps.map(|step| Grid { start, step })).concat();
    for (left, right, p) in [(0, 0, 0), (0, 0, 3), (1, 0, 3), (0, 1, 3), (1, 1, 0), (1, 1, 3)] {
        let c = call(&plain(Operator::Add), &numbered(left, p, b"a"), &numbered(right, p, b"a"), ROOM);
        for left_grid in &grids {
            for right_grid in &grids {
                let mut c = c.clone();
                put_grid(&mut c.left_labels, *left_grid);
                put_grid(&mut c.right_labels, *right_grid);
                visit(c);
            }
        }
    }
}

/// Every byte as the allowance, with and without bytes behind it, and none, behind queries that are good and that have another
/// fault, cut lists among them, over sides that are good, that overlap at four places, and that have a fault: 1 and 2 come before
/// 13, all faults of a side after it.
pub fn allowances(visit: &mut dyn FnMut(Call)) {
    let side = |n: usize| Vector::hourly(4, vec![series(tagged(1, 1), 4); n]);
    let good = call(&plain(Operator::Add), &side(1), &side(1), ROOM);
    let overlapping = call(&plain(Operator::Add), &side(2), &side(1), ROOM);
    let mut faulty = good.clone();
    put_grid(&mut faulty.left_labels, Grid { start: 0, step: 0 });
    // Without their allowance: three that are good, a refused operator and one above 18, an unknown join, lists that are not
    // empty where they are to be.
    let heads: [&[u8]; 8] = [
        b"\0\0\0\0\0\0",
        b"\0\x01\x01\x02\x01\x01z\x02\x01b\x01c",
        b"\x12\0\x03\0\0\0",
        b"\x08\0\0\0\0\0",
        b"\x13\0\0\0\0\0",
        b"\0\0\x04\0\0\0",
        b"\0\0\0\0\x01\x01z\0",
        b"\0\0\0\0\0\x01\x01b",
    ];
    for c in [good, overlapping, faulty] {
        let mut put = |query: Vec<u8>| visit(Call { query, ..c.clone() });
        for head in heads {
            for allowance in 0..=255 {
                put([head, &[allowance]].concat());
            }
            for allowance in [0, 2, 8, 9, 255] {
                put([head, &[allowance, 0]].concat());
                put([head, &[allowance, allowance]].concat());
            }
            for cut in 0..=head.len() {
                put(head[..cut].to_vec());
                put([&head[..cut], &[9]].concat());
            }
        }
    }
}

/// Sides of different p, empty ones included, with faults before them at times; half of them on one grid.
pub fn unequal_points(r: &mut Random, visit: &mut dyn FnMut(Call)) {
    let mut c = whole(r);
    let other = whole(r);
    if r.one_in(2) {
        c.right_labels = other.right_labels;
        c.right = other.right;
    } else {
        c.left_labels = other.left_labels;
        c.left = other.left;
    }
    if r.one_in(2) {
        put_grid(&mut c.left_labels, Grid::HOURLY);
        put_grid(&mut c.right_labels, Grid::HOURLY);
    }
    visit(c);
}

/// Output parts that are just long enough, one short in either, empty, or longer.
pub fn rooms(r: &mut Random, visit: &mut dyn FnMut(Call)) {
    let mut c = whole(r);
    let (labels, readings) = reference_call(&c).map_or((4, 4), |a| (a.labels.len(), a.readings.len()));
    for room in [
        Room { labels, readings },
        Room { labels: labels.saturating_sub(1), readings },
        Room { labels, readings: readings.saturating_sub(1) },
        Room { labels: 0, readings: 0 },
        Room { labels: labels + r.below(9), readings: readings + r.below(9) },
    ] {
        c.room = room;
        visit(c.clone());
    }
}

fn tagged(n: usize, width: usize) -> Labels {
    let tag = |i: usize| Tag { key: format!("k{i:02}").into_bytes(), value: vec![b'v'; width] };
    Labels { name: vec![], tags: (0..n).map(tag).collect() }
}

fn series(labels: Labels, p: usize) -> Series {
    Series { labels, row: vec![0x3ff0_0000_0000_0000; p] }
}

fn numbered(n: usize, p: usize, key: &[u8]) -> Vector {
    let one = |i: usize| {
        let tags = vec![Tag { key: key.to_vec(), value: format!("{i:03}").into_bytes() }];
        series(Labels { name: vec![], tags }, p)
    };
    Vector::hourly(p, (0..n).map(one).collect())
}

/// The limits of 01, at them and one beyond: in what is taken (3) and in what is answered (9).
pub fn limits(visit: &mut dyn FnMut(Call)) {
    let big = Room { labels: 65_535, readings: 524_288 };
    let add = plain(Operator::Add);
    let or = plain(Operator::Or);
    // Taken: 512 and 513 series, 1,024 and 1,025 points, 32 and 33 tags, names of 255 bytes.
    for n in [512, 513] {
        for op in [&add, &or] {
            visit(call(op, &numbered(n, 2, b"a"), &numbered(2, 2, b"a"), big));
            visit(call(op, &numbered(2, 2, b"a"), &numbered(n, 2, b"a"), big));
        }
    }
    for p in [1024, 1025] {
        visit(call(&add, &numbered(3, p, b"a"), &numbered(3, p, b"a"), big));
    }
    visit(call(&add, &numbered(512, 1024, b"a"), &numbered(512, 1024, b"a"), big));
    for n in [32, 33] {
        for width in [0, 255] {
            let side = Vector::hourly(1, vec![series(tagged(n, width), 1)]);
            visit(call(&add, &side, &side, big));
        }
    }
    // Answered: a join of 22 or 23 on 23 has 506 or 529 series, of 16 on 32 exactly 512; 1 on 1 to 33 tags by `*`.
    let group = |list: &[u8]| Query {
        matching: Matching::On,
        matching_list: vec![b"z".to_vec()],
        join: Join::GroupLeft,
        join_list: vec![list.to_vec()],
        ..plain(Operator::Mul)
    };
    for (many, one) in [(16, 32), (22, 23), (23, 23), (512, 2), (2, 512), (1, 512), (512, 512)] {
        for join in [Join::GroupLeft, Join::GroupRight] {
            let query = Query { join, ..group(b"b") };
            visit(call(&query, &numbered(many, 1, b"a"), &numbered(one, 1, b"b"), big));
        }
    }
    // A duplicate comes before too many series, wherever it ranks.
    let mut doubled = numbered(23, 1, b"b");
    doubled.series[22].labels = doubled.series[21].labels.clone();
    visit(call(&group(b"b"), &numbered(23, 1, b"a"), &doubled, big));
    for extra in 0..3 {
        let many = Vector::hourly(1, vec![series(tagged(31, 1), 1)]);
        let other = |i: usize| Tag { key: format!("m{i}").into_bytes(), value: vec![] };
        let one = Labels { name: vec![], tags: (0..extra).map(other).collect() };
        visit(call(&group(b"*"), &many, &Vector::hourly(1, vec![series(one, 1)]), big));
    }
    // `or` of 256 and 256, or 257: 512, or 513.
    for n in [256, 257] {
        visit(call(&or, &numbered(256, 1, b"a"), &numbered(n, 1, b"b"), big));
    }
    // Label bytes: 65,535 and one more, by a join that copies a long value onto many, and by `or`.
    for value in [120, 124, 125, 126, 127, 255] {
        let many = numbered(512, 1, b"a");
        let long = Labels { name: vec![], tags: vec![Tag { key: b"b".to_vec(), value: vec![b'v'; value] }] };
        visit(call(&group(b"b"), &many, &Vector::hourly(1, vec![series(long, 1)]), big));
    }
    for total in [65_534, 65_535, 65_536] {
        let (left, right) = sides_of_bytes(total);
        for labels in [65_535, 65_534, 100] {
            visit(call(&or, &left, &right, Room { labels, readings: 524_288 }));
        }
    }
    // 9 comes before 10.
    visit(call(&group(b"b"), &numbered(23, 1, b"a"), &numbered(23, 1, b"b"), Room { labels: 0, readings: 0 }));
}

/// Two sides of distinct labels whose records have `total` bytes in all: records of 246 bytes, and the rest in the last's name.
fn sides_of_bytes(total: usize) -> (Vector, Vector) {
    let side = |key: u8, bytes: usize| {
        let tags = |i: usize| vec![Tag { key: vec![key, i as u8], value: vec![b'v'; 240] }];
        let one = |i: usize| Series { labels: Labels { name: vec![], tags: tags(i) }, row: vec![MISSING] };
        let mut all: Vec<Series> = (0..bytes / 246).map(one).collect();
        all.last_mut().expect("a series").labels.name = vec![b'n'; bytes % 246];
        Vector::hourly(1, all)
    };
    (side(b'a', 32_767), side(b'b', total - 32_767))
}
