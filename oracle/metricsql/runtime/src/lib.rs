//! metricsql's runtime crate, as far as `exec_binop` needs it. The sources stay where they are (build.rs lists each step);
//! what they name beyond themselves is supplied here.
#![allow(dead_code, unused_imports, mismatched_lifetime_syntaxes, clippy::all)]

pub mod types {
    include!(concat!(env!("OUT_DIR"), "/metric_name.rs"));
    include!(concat!(env!("OUT_DIR"), "/signature.rs"));
    include!(concat!(env!("OUT_DIR"), "/timeseries.rs"));

    pub use metric_name::{MetricName, Tag, METRIC_NAME_LABEL};
    pub use timeseries::Timeseries;
}

mod execution {
    pub mod utils {
        use crate::types::Timeseries;

        include!(concat!(env!("OUT_DIR"), "/utils.rs"));
    }

    pub mod binary {
        include!(concat!(env!("OUT_DIR"), "/binop_vector_vector.rs"));
    }
}

include!(concat!(env!("OUT_DIR"), "/runtime_error.rs"));

pub use runtime_error::{RuntimeError, RuntimeResult};
pub use types::signature;
pub use types::timeseries::{group_series_by_match_modifier, TimeseriesHashMap};
pub use types::{MetricName, Tag, Timeseries, METRIC_NAME_LABEL};

pub type InstantVector = Vec<Timeseries>;

/// `exec_binop`, which is `pub(crate)` there, with its argument's struct made for the caller.
pub fn exec_binop(
    op: metricsql_parser::ast::Operator,
    modifier: &Option<metricsql_parser::prelude::BinModifier>,
    left: InstantVector,
    right: InstantVector,
) -> RuntimeResult<InstantVector> {
    use execution::binary::binop_vector_vector::{exec_binop, BinaryOpFuncArg};
    exec_binop(&mut BinaryOpFuncArg::new(left, op, right, modifier))
}

/// Named by `MetricName::parse`. Parsing of expressions stays behind (document 01): nothing is parsed.
fn parse_metric_selector(_selector: &str) -> RuntimeResult<Selector> {
    Err(RuntimeError::from("selectors are not parsed here"))
}

struct Selector {
    matchers: Vec<Filter>,
    or_matchers: Vec<Vec<Filter>>,
}

impl Selector {
    fn is_empty(&self) -> bool {
        self.matchers.is_empty() && self.or_matchers.is_empty()
    }
}

struct Filter {
    label: String,
    op: metricsql_parser::label::LabelFilterOp,
    value: String,
}

mod common {
    /// Named by `MetricName::marshal` and `unmarshal`, which no binary operator runs.
    pub mod encoding {
        use crate::{RuntimeError, RuntimeResult};

        pub fn write_usize(buf: &mut Vec<u8>, n: usize) {
            buf.extend_from_slice(&(n as u64).to_le_bytes());
        }

        pub fn read_usize<'a>(src: &'a [u8], what: &str) -> RuntimeResult<(&'a [u8], usize)> {
            match src.split_first_chunk::<8>() {
                Some((n, rest)) => Ok((rest, u64::from_le_bytes(*n) as usize)),
                None => Err(RuntimeError::SerializationError(format!("{what} is cut"))),
            }
        }

        pub fn write_string(buf: &mut Vec<u8>, s: &str) {
            write_usize(buf, s.len());
            buf.extend_from_slice(s.as_bytes());
        }

        pub fn read_string<'a>(src: &'a [u8], what: &str) -> RuntimeResult<(&'a [u8], String)> {
            let (rest, n) = read_usize(src, what)?;
            match rest.split_at_checked(n) {
                Some((s, rest)) => Ok((rest, String::from_utf8_lossy(s).into_owned())),
                None => Err(RuntimeError::SerializationError(format!("{what} is cut"))),
            }
        }
    }
}
