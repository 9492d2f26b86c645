//! The Rust's `exec_binop`, run on taken vectors, and its `remove_group_tags`.
use std::panic::{catch_unwind, AssertUnwindSafe};
use std::sync::Arc;

use metricsql_parser::ast::Operator as RustOperator;
use metricsql_parser::prelude::Labels as RustLabels;
use metricsql_parser::prelude::{AggregateModifier, BinModifier, VectorMatchCardinality, VectorMatchModifier};
use metricsql_runtime::{exec_binop, MetricName, RuntimeError, Tag as RustTag, Timeseries};
use reference::{Grid, Grouping, Join, Labels, Matching, Operator, Query, Request, Series, Tag, Vector};

/// What the Rust gave.
#[derive(Debug)]
pub enum Given {
    Answer {
        series: Vec<Series>,
        /// Of each series.
        timestamps: Vec<Vec<i64>>,
    },
    /// Its message, which names the side and the two series.
    Duplicate(String),
    OtherError(String),
    Panic,
}

/// An argument as the Rust has it. It holds names as `String`: labels that are not UTF-8 have none.
pub struct Argument {
    pub op: RustOperator,
    pub modifier: Option<BinModifier>,
    pub left: Vec<Timeseries>,
    pub right: Vec<Timeseries>,
}

pub fn argument(query: &Query, left: &Vector, right: &Vector) -> Option<Argument> {
    Some(Argument { op: operator(query.op), modifier: modifier(query)?, left: timeseries(left)?, right: timeseries(right)? })
}

pub fn run(argument: Argument) -> Given {
    let Argument { op, modifier, left, right } = argument;
    match catch_unwind(AssertUnwindSafe(|| exec_binop(op, &modifier, left, right))) {
        Err(_) => Given::Panic,
        Ok(Ok(series)) => Given::Answer {
            series: series.iter().map(back).collect(),
            timestamps: series.iter().map(|ts| ts.timestamps.to_vec()).collect(),
        },
        Ok(Err(RuntimeError::General(message))) if message.starts_with("duplicate time series on the ") => {
            Given::Duplicate(message)
        }
        Ok(Err(error)) => Given::OtherError(format!("{error:?}")),
    }
}

/// How the Rust writes a series' labels in a message.
pub fn shown(labels: &Labels) -> String {
    metric_name(labels).map_or_else(String::new, |m| m.to_string())
}

fn operator(op: Operator) -> RustOperator {
    use RustOperator::*;
    [Add, And, Atan2, Default, Div, Eql, Mod, Mul, Pow, Sub, Gt, Gte, If, IfNot, Lt, Lte, NotEq, Or, Unless][op as usize]
}

/// The struct is built directly: its builder resets the join where there is no matching. A query without any modifier has none.
fn modifier(query: &Query) -> Option<Option<BinModifier>> {
    let matching = match query.matching {
        Matching::None => None,
        Matching::On => Some(VectorMatchModifier::On(list(&query.matching_list)?)),
        Matching::Ignoring => Some(VectorMatchModifier::Ignoring(list(&query.matching_list)?)),
    };
    let card = match query.join {
        Join::OneToOne => VectorMatchCardinality::OneToOne,
        Join::GroupLeft => VectorMatchCardinality::ManyToOne(list(&query.join_list)?),
        Join::GroupRight => VectorMatchCardinality::OneToMany(list(&query.join_list)?),
        Join::ManyToMany => VectorMatchCardinality::ManyToMany,
    };
    let modifier = BinModifier { card, matching, keep_metric_names: query.keep_names, return_bool: query.bool_flag };
    Some(if modifier.is_default() { None } else { Some(modifier) })
}

/// In the query's order: the Rust's constructors would sort.
fn list(labels: &[Vec<u8>]) -> Option<RustLabels> {
    let mut out = RustLabels::default();
    for label in labels {
        out.push(text(label)?);
    }
    Some(out)
}

fn text(bytes: &[u8]) -> Option<String> {
    String::from_utf8(bytes.to_vec()).ok()
}

fn metric_name(labels: &Labels) -> Option<MetricName> {
    let tag = |t: &Tag| Some(RustTag { key: text(&t.key)?, value: text(&t.value)? });
    Some(MetricName { metric_group: text(&labels.name)?, tags: labels.tags.iter().map(tag).collect::<Option<_>>()? })
}

/// The times of a grid's points, as the Rust has them.
pub fn timestamps(grid: Grid, points: usize) -> Vec<i64> {
    grid.times(points).into_iter().map(|t| i64::try_from(t).expect("a time in its range")).collect()
}

fn timeseries(vector: &Vector) -> Option<Vec<Timeseries>> {
    let timestamps = Arc::new(timestamps(vector.grid, vector.points));
    let one = |s: &Series| {
        let values = s.row.iter().map(|r| f64::from_bits(*r)).collect();
        Some(Timeseries { metric_name: metric_name(&s.labels)?, values, timestamps: Arc::clone(&timestamps) })
    };
    vector.series.iter().map(one).collect()
}

fn back(ts: &Timeseries) -> Series {
    Series { labels: labels_back(&ts.metric_name), row: ts.values.iter().map(|v| v.to_bits()).collect() }
}

fn labels_back(name: &MetricName) -> Labels {
    let tag = |t: &RustTag| Tag { key: t.key.clone().into_bytes(), value: t.value.clone().into_bytes() };
    Labels { name: name.metric_group.clone().into_bytes(), tags: name.tags.iter().map(tag).collect() }
}

/// Labels as the Rust's `remove_group_tags` edits them; None where they are not UTF-8.
pub fn edited_total(labels: &Labels, request: &Request) -> Option<Labels> {
    let list = request.list.iter().map(|label| text(label)).collect::<Option<_>>()?;
    let modifier = match request.grouping {
        Grouping::By => AggregateModifier::By(list),
        Grouping::Without => AggregateModifier::Without(list),
    };
    let mut edited = metric_name(labels)?;
    edited.remove_group_tags(&Some(modifier));
    Some(labels_back(&edited))
}
