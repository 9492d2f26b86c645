//! The inputs that are measured, the same on every machine.
use oracle::cases::plain;
use oracle::random::Random;
use reference::{is_missing, Room, Series, Tag, Vector, MISSING};
use reference::{Aggregate, AggregateCall, Call, ExportCall, Grid, Grouping, Join, Labels, Matching, Operator, Query, Request};

pub struct Workload {
    pub name: String,
    pub work: Work,
}

pub enum Work {
    Query(Call),
    Aggregate(AggregateCall),
    /// Into a part that is just as long as the text.
    Export(ExportCall),
}

const ROOM: Room = Room { labels: 65_535, readings: 524_288 };

/// Where readings are missing. Series of one key share out the points, so that they merge.
#[derive(Clone, Copy)]
enum Gaps {
    /// Half of the points at random. Several series of a key: each point is one's at random.
    Random,
    /// Every other point. Several series of a key take turns; where they are more than the points, some share a point.
    Alternate,
    /// None. Several series of a key have a part of the row each, as where a counter was changed in mid-run.
    None,
}

const GAPS: [(&str, Gaps); 3] = [("random half", Gaps::Random), ("every other", Gaps::Alternate), ("none", Gaps::None)];
const THIRDS: [(&str, Gaps); 3] = [("random thirds", Gaps::Random), ("by turns", Gaps::Alternate), ("a third each", Gaps::None)];

/// `n` series of `p` points, `each` of them a key, with as many tags as asked for: the first tells keys apart, and where a key
/// has several series their names differ.
fn side(r: &mut Random, n: usize, p: usize, each: usize, tags: usize, gaps: Gaps) -> Vector {
    let shares = each.max(2);
    let mut series = Vec::new();
    let mut owners = Vec::new();
    for i in 0..n {
        let (key, turn) = (i / each, i % each);
        if turn == 0 {
            owners = (0..p).map(|_| r.below(shares)).collect();
        }
        let present = |at: usize| match (gaps, each) {
            (Gaps::Random, _) => owners[at] == turn,
            (Gaps::Alternate, _) => at % shares == turn % p,
            (Gaps::None, 1) => true,
            (Gaps::None, _) => at * each / p == turn,
        };
        let row = (0..p).map(|at| if present(at) { (1.0 + r.below(1 << 20) as f64).to_bits() } else { MISSING }).collect();
        let tag = |t: usize| tag(&format!("tag{t}"), if t == 0 { key } else { key / 3 + t });
        let labels = Labels { name: format!("count{turn}").into_bytes(), tags: (0..tags).map(tag).collect() };
        series.push(Series { labels, row });
    }
    Vector::hourly(p, series)
}

fn tag(key: &str, value: usize) -> Tag {
    Tag { key: key.as_bytes().to_vec(), value: format!("{value:03}").into_bytes() }
}

fn made(name: String, query: &Query, left: &Vector, right: &Vector) -> Workload {
    Workload { name, work: Work::Query(oracle::cases::call(query, left, right, ROOM)) }
}

fn spelling(query: &Query) -> String {
    format!("{}{}", query.op.spelling(), if query.bool_flag { " bool" } else { "" })
}

/// The same keys on both sides, a series each.
fn one_a_key(r: &mut Random, query: &Query, n: usize, p: usize, gaps: (&str, Gaps)) -> Workload {
    let (left, right) = (side(r, n, p, 1, 2, gaps.1), side(r, n, p, 1, 2, gaps.1));
    made(format!("{}, {n} series of {p} points, gaps: {}", spelling(query), gaps.0), query, &left, &right)
}

fn unless(r: &mut Random, n: usize, p: usize, gaps: (&str, Gaps)) -> Workload {
    one_a_key(r, &plain(Operator::Unless), n, p, gaps)
}

/// A sum of `n` series a side, two a key.
fn sum(r: &mut Random, n: usize, p: usize, gaps: (&str, Gaps)) -> Workload {
    let (left, right) = (side(r, n, p, 2, 2, gaps.1), side(r, n, p, 2, 2, gaps.1));
    made(format!("+, {n} series of {p} points, two a key, gaps: {}", gaps.0), &plain(Operator::Add), &left, &right)
}

fn sum_of_three(r: &mut Random, n: usize, p: usize, gaps: (&str, Gaps)) -> Workload {
    let (left, right) = (side(r, n, p, 3, 2, gaps.1), side(r, n, p, 3, 2, gaps.1));
    made(format!("+, {n} series of {p} points, three a key: {}", gaps.0), &plain(Operator::Add), &left, &right)
}

/// Half of the left keys are on the right too, and as many right series are added.
fn or_added(r: &mut Random, n: usize, p: usize, gaps: (&str, Gaps)) -> Workload {
    let (left, mut right) = (side(r, n, p, 1, 2, gaps.1), side(r, n + n / 2, p, 1, 2, gaps.1));
    right.series.drain(..n / 2);
    let name = format!("or, {n} series of {p} points, half of the keys on both sides, gaps: {}", gaps.0);
    made(name, &plain(Operator::Or), &left, &right)
}

/// The right side is one series without name and tags, which every left series falls back to.
fn if_fallback(r: &mut Random, n: usize, p: usize, gaps: (&str, Gaps)) -> Workload {
    let (left, mut right) = (side(r, n, p, 1, 2, gaps.1), side(r, 1, p, 1, 0, gaps.1));
    right.series[0].labels.name.clear();
    made(format!("if, {n} series of {p} points, the fallback, gaps: {}", gaps.0), &plain(Operator::If), &left, &right)
}

/// `* on(press) group_left(stock)`.
fn join_query() -> Query {
    Query {
        matching: Matching::On,
        matching_list: vec![b"press".to_vec()],
        join: Join::GroupLeft,
        join_list: vec![b"stock".to_vec()],
        ..plain(Operator::Mul)
    }
}

/// The many side of a join, or the vector of an aggregate: each series has a form of its own, and the presses take turns.
fn forms(r: &mut Random, n: usize, presses: usize, p: usize, gaps: Gaps) -> Vector {
    let mut many = side(r, n, p, 1, 0, gaps);
    for (i, s) in many.series.iter_mut().enumerate() {
        s.labels.tags = vec![tag("form", i), tag("press", i % presses)];
    }
    many
}

/// One one-side series a key, and every `many / one` many-side series share one.
fn join(r: &mut Random, many: usize, one: usize, p: usize) -> Workload {
    let left = forms(r, many, one, p, Gaps::Random);
    let mut right = side(r, one, p, 1, 0, Gaps::Random);
    for (i, s) in right.series.iter_mut().enumerate() {
        s.labels.tags = vec![tag("press", i), tag("stock", i % 4)];
    }
    made(format!("group_left *, {many} on {one}, {p} points"), &join_query(), &left, &right)
}

/// 512 one-side series, `each` a key with one stock, so that they merge into one row; and a many-side series a key, so that
/// the Rust's using up of its one side does not show.
fn join_merged(r: &mut Random, each: usize, p: usize) -> Workload {
    let keys = 512 / each;
    let left = forms(r, keys, keys, p, Gaps::Random);
    let mut right = side(r, 512, p, each, 0, Gaps::Alternate);
    for (i, s) in right.series.iter_mut().enumerate() {
        s.labels.tags = vec![tag("press", i / each), tag("stock", i / each % 4)];
    }
    made(format!("group_left *, {keys} on 512, {each} a key that merge, {p} points"), &join_query(), &left, &right)
}

/// One many-side series that meets 512 one-side series, each with a stock of its own and so an answer series.
fn join_apart(r: &mut Random, p: usize) -> Workload {
    let left = forms(r, 1, 1, p, Gaps::Random);
    let mut right = side(r, 512, p, 1, 0, Gaps::Random);
    for (i, s) in right.series.iter_mut().enumerate() {
        s.labels.tags = vec![tag("press", 0), tag("stock", i)];
    }
    made(format!("group_left *, 1 on 512, 512 a key that stay apart, {p} points"), &join_query(), &left, &right)
}

/// Three tags on each side. Of the one side's, one is new, one stands for one that the many-side record has, and the key's is left
/// alone. Short rows, so that the editing of records shows.
fn join_starred(r: &mut Random, n: usize, p: usize) -> Workload {
    let (mut left, mut right) = (side(r, n, p, 1, 0, Gaps::Random), side(r, n, p, 1, 0, Gaps::Random));
    for (i, (many, one)) in left.series.iter_mut().zip(right.series.iter_mut()).enumerate() {
        many.labels.tags = vec![tag("form", i), tag("press", i), tag("stock", i % 4)];
        one.labels.tags = vec![tag("press", i), tag("size", i % 8), tag("stock", i % 3)];
    }
    let query = Query { join_list: vec![b"*".to_vec()], ..join_query() };
    made(format!("group_left(*) *, {n} on {n}, three tags, {p} points"), &query, &left, &right)
}

/// Short rows: matching dominates.
fn labelled(r: &mut Random, op: Operator) -> Workload {
    let (left, right) = (side(r, 512, 16, 1, 3, Gaps::Random), side(r, 512, 16, 1, 3, Gaps::Random));
    made(format!("{}, 512 series of 16 points, three tags", op.spelling()), &plain(op), &left, &right)
}

/// `sum by (press)` of 512 series that so many presses share.
fn sum_by(r: &mut Random, presses: usize, p: usize, gaps: (&str, Gaps)) -> Workload {
    let request = Request { aggregate: Aggregate::Sum, grouping: Grouping::By, list: vec![b"press".to_vec()] };
    let vector = forms(r, 512, presses, p, gaps.1);
    let each = 512 / presses;
    let groups = if presses == 1 { format!("one group of {each}") } else { format!("{presses} groups of {each}") };
    Workload {
        name: format!("sum by, 512 series of {p} points, {groups}, gaps: {}", gaps.0),
        work: Work::Aggregate(oracle::aggregates::call(&request, &vector, ROOM)),
    }
}

/// The text of series with three tags, of hundredths, from 2026 on. No hundredth is half a thousandth.
fn export(r: &mut Random, n: usize, p: usize, gaps: (&str, Gaps)) -> Workload {
    let mut vector = side(r, n, p, 1, 3, gaps.1);
    vector.grid = Grid { start: 1_772_431_200_000, ..vector.grid };
    for reading in vector.series.iter_mut().flat_map(|s| &mut s.row).filter(|reading| !is_missing(**reading)) {
        *reading = (f64::from_bits(*reading) / 100.0).to_bits();
    }
    let mut call = oracle::exports::call(&vector, usize::MAX);
    call.room = reference::export(&call).expect("a text").len();
    Workload { name: format!("export, {n} series of {p} points, three tags, gaps: {}", gaps.0), work: Work::Export(call) }
}

pub fn workloads() -> Vec<Workload> {
    let r = &mut Random::new(1);
    let mut all = Vec::new();
    all.extend(GAPS.map(|gaps| unless(r, 256, 1024, gaps)));
    all.extend(GAPS.map(|gaps| sum(r, 256, 1024, gaps)));
    all.push(join(r, 256, 16, 1024));
    all.push(join(r, 256, 256, 1024));
    all.push(labelled(r, Operator::Add));
    all.push(labelled(r, Operator::And));
    all.extend(THIRDS.map(|gaps| sum_of_three(r, 384, 1024, gaps)));
    for (each, p) in [(16, 16), (16, 1024), (2, 16), (2, 1024), (512, 16), (512, 1024)] {
        all.push(join_merged(r, each, p));
    }
    all.extend([16, 1024].map(|p| join_apart(r, p)));
    let queries = [
        plain(Operator::Gt),
        plain(Operator::NotEq),
        Query { bool_flag: true, ..plain(Operator::Eql) },
        plain(Operator::Or),
        plain(Operator::Default),
    ];
    for query in &queries {
        all.extend(GAPS.map(|gaps| one_a_key(r, query, 256, 1024, gaps)));
    }
    all.push(or_added(r, 256, 1024, GAPS[0]));
    all.extend(GAPS.map(|gaps| if_fallback(r, 256, 1024, gaps)));
    for n in [32, 64, 128, 512] {
        all.push(unless(r, n, 1024, GAPS[0]));
    }
    for n in [32, 64, 128, 512] {
        all.push(sum(r, n, 1024, GAPS[0]));
    }
    for p in [64, 128, 256, 512] {
        all.push(unless(r, 256, p, GAPS[0]));
    }
    for p in [64, 128, 256, 512] {
        all.push(sum(r, 256, p, GAPS[0]));
    }
    for presses in [16, 1] {
        all.extend(GAPS.map(|gaps| sum_by(r, presses, 1024, gaps)));
    }
    all.push(join_starred(r, 512, 16));
    all.extend(GAPS.map(|gaps| export(r, 256, 1024, gaps)));
    all.push(export(r, 512, 16, GAPS[2]));
    all
}
