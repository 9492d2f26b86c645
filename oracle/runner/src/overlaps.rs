//! Merges whose rows overlap at as many places as the allowance has, at one fewer and at one more. The Rust allows 2 alone, so
//! these are for the reference and the library.
use reference::{Call, Join, Labels, Matching, Operator, Query, Series, Tag, Vector, MAX_ALLOWANCE, MAX_POINTS, MISSING};

use crate::cases::{call, missing, plain, CARRIED, ROOM};
use crate::random::Random;

/// A join, and how many series of a key either side has; the many side's are not merged.
#[derive(Clone, Copy)]
struct Form {
    join: Join,
    left: usize,
    right: usize,
}

impl Form {
    /// Whether the left side's series of a key are merged, and whether the right side's are.
    fn merges(self) -> [bool; 2] {
        [self.join != Join::GroupLeft && self.left > 1, self.join != Join::GroupRight && self.right > 1]
    }
}

/// Where a row has readings.
type Places = Vec<bool>;

/// Every place beside a border of 64 places.
fn beside_borders(p: usize) -> Vec<usize> {
    (0..p).filter(|i| matches!(i % 64, 63 | 0 | 1)).collect()
}

/// A case under this allowance: rows short, or long and overlapping beside borders of 64 places; up to three keys, of which each
/// may have a merge with an overlap too many. Of long rows there are no more than the program's input has room for.
pub fn random(r: &mut Random, allowance: usize, long: bool) -> Call {
    let operators: Vec<Operator> = CARRIED.into_iter().filter(|op| !op.is_logical_op()).collect();
    let join = r.pick(&[Join::OneToOne, Join::GroupLeft, Join::GroupRight, Join::ManyToMany]);
    let several = r.pick(if long { &[2, 2, 3, 4] } else { &[2, 2, 3, 4, 7][..] });
    let (few, merged_on_left) = (1 + r.below(3), r.one_in(2));
    let form = match join {
        Join::GroupLeft => Form { join, left: few, right: several },
        Join::GroupRight => Form { join, left: several, right: few },
        _ if merged_on_left => Form { join, left: several, right: few },
        _ => Form { join, left: few, right: several },
    };
    let p = match long {
        true => r.pick(&[200, 256, 257, 1000, 1023, 1024]),
        false if r.one_in(8) => r.below(4),
        false => (allowance + 1).max(3) + r.below(8),
    };
    let preferred = if long { beside_borders(p) } else { (0..p).collect() };
    let keys = if long { 1 } else { 1 + r.below(3) };
    let mut sides = [vec![], vec![]];
    for (side, series) in [form.left, form.right].into_iter().enumerate() {
        for _ in 0..keys {
            let mut overlaps: Vec<usize> = (1..series).map(|_| allowance.saturating_sub(r.below(2))).collect();
            if series > 1 && r.one_in(4) {
                overlaps[r.below(series - 1)] = allowance + 1;
            }
            sides[side].push(in_order(form, random_places(r, p, &preferred, &overlaps)));
        }
    }
    let matching = r.pick(&[Matching::On, Matching::Ignoring]);
    let query = Query { allowance, bool_flag: r.one_in(4), keep_names: r.one_in(4), ..asked(form, r.pick(&operators), matching) };
    let [left, right] = sides.map(|keys| dealt(r, p, keys));
    call(&query, &left, &right, ROOM)
}

/// Where a destination row has readings, and then each source in the order of merging, which has a reading at so many of the
/// preferred places at which the row merged so far has one, and at no other of its places.
fn random_places(r: &mut Random, p: usize, preferred: &[usize], overlaps: &[usize]) -> Vec<Places> {
    let mut merged: Places = (0..p).map(|_| r.one_in(3)).collect();
    let most = overlaps.iter().copied().max().unwrap_or(0);
    for i in r.several(preferred, most) {
        merged[i] = true;
    }
    let mut all = vec![merged.clone()];
    for overlap in overlaps {
        let mut source: Places = merged.iter().map(|present| !present && r.one_in(3)).collect();
        let met: Vec<usize> = preferred.iter().copied().filter(|i| merged[*i]).collect();
        for i in r.several(&met, *overlap) {
            source[i] = true;
        }
        merged.iter_mut().zip(&source).for_each(|(m, s)| *m |= s);
        all.push(source);
    }
    all
}

/// The destination first on the one side of a join, last in a one-to-one call.
fn in_order(form: Form, mut rows: Vec<Places>) -> Vec<Places> {
    if matches!(form.join, Join::OneToOne | Join::ManyToMany) {
        rows.rotate_left(1);
    }
    rows
}

/// Series of a key, told by the tag k, differ in the tag s. A join sets s from no source, so that its one side merges.
fn asked(form: Form, op: Operator, matching: Matching) -> Query {
    let label = if matching == Matching::On { b"k" } else { b"s" };
    Query { matching, matching_list: vec![label.to_vec()], join: form.join, ..plain(op) }
}

fn labelled(key: usize, place: usize) -> Labels {
    let tag = |key: &[u8], n: usize| Tag { key: key.to_vec(), value: n.to_string().into_bytes() };
    Labels { name: vec![], tags: vec![tag(b"k", key), tag(b"s", place)] }
}

/// The keys' rows put together, each key's in its order, with readings of their own.
fn dealt(r: &mut Random, p: usize, keys: Vec<Vec<Places>>) -> Vector {
    let mut rest: Vec<_> = keys.into_iter().map(Vec::into_iter).collect();
    let mut series = Vec::new();
    while rest.iter().any(|rows| rows.len() > 0) {
        let key = r.below(rest.len());
        if let Some(places) = rest[key].next() {
            let first = 1 + r.below(1000);
            let row = places.iter().enumerate().map(|(i, p)| if *p { ((first + i) as f64).to_bits() } else { missing(r) });
            let row = row.collect();
            series.push(Series { labels: labelled(key, series.len()), row });
        }
    }
    Vector::hourly(p, series)
}

/// Rows of 1,024 places that take turns, and besides overlap at neighbours among the places beside a border of 64: from each of
/// these places on, under every allowance, at as many places as it has and at one more.
pub fn borders(visit: &mut dyn FnMut(Call)) {
    let beside = beside_borders(MAX_POINTS);
    let form = |join, left, right| Form { join, left, right };
    let forms = [
        form(Join::OneToOne, 2, 1),
        form(Join::OneToOne, 1, 2),
        form(Join::OneToOne, 2, 2),
        form(Join::OneToOne, 3, 1),
        form(Join::OneToOne, 1, 3),
        form(Join::GroupLeft, 1, 2),
        form(Join::GroupLeft, 1, 3),
        form(Join::GroupRight, 2, 1),
        form(Join::GroupRight, 3, 1),
    ];
    for allowance in 0..=MAX_ALLOWANCE {
        for first in 0..beside.len() {
            let window = |n: usize| -> Vec<usize> { beside.iter().copied().cycle().skip(first).take(n).collect() };
            for form in forms {
                let query = Query { allowance, ..asked(form, Operator::Sub, Matching::On) };
                for above in [[0, 0], [1, 0], [0, 1], [1, 1]] {
                    if above.iter().zip(form.merges()).any(|(above, merges)| *above == 1 && !merges) {
                        continue;
                    }
                    let side = |series, above| taking_turns(form, series, &window(allowance), &window(allowance + above));
                    visit(call(&query, &side(form.left, above[0]), &side(form.right, above[1]), ROOM));
                }
            }
        }
    }
}

/// One key's series of 1,024 places: the destination has a reading at every shared place, the last source at those of `last`, and
/// the others at those of `each`.
fn taking_turns(form: Form, series: usize, each: &[usize], last: &[usize]) -> Vector {
    let present = |turn: usize, i: usize| {
        let shared = if turn == 0 || turn == series - 1 { last } else { each };
        i % series == turn && !last.contains(&i) || shared.contains(&i)
    };
    let rows = (0..series).map(|turn| (0..MAX_POINTS).map(|i| present(turn, i)).collect()).collect();
    let reading = |place: usize, i: usize, p: bool| if p { ((2000 * place + i) as f64).to_bits() } else { MISSING };
    let series = in_order(form, rows).into_iter().enumerate().map(|(place, places)| {
        let row = places.into_iter().enumerate().map(|(i, p)| reading(place, i, p)).collect();
        Series { labels: labelled(0, place), row }
    });
    Vector::hourly(MAX_POINTS, series.collect())
}
