//! metricsql's parser crate, as far as `exec_binop` needs it. The sources stay where they are (build.rs lists each step);
//! what they name beyond themselves is supplied here.
#![allow(dead_code, unused_imports, mismatched_lifetime_syntaxes, clippy::all)]

pub mod ast {
    include!(concat!(env!("OUT_DIR"), "/operator.rs"));

    pub mod expr {
        use std::fmt;
        use std::fmt::{Display, Formatter};

        use serde::{Deserialize, Serialize};

        use crate::ast::utils::string_vecs_equal_unordered;
        use crate::common::write_comma_separated;
        use crate::label::Labels;
        use crate::parser::ParseError;

        include!(concat!(env!("OUT_DIR"), "/expr.rs"));
    }

    mod utils {
        pub fn string_vecs_equal_unordered(a: &[String], b: &[String]) -> bool {
            let (mut a, mut b) = (a.to_vec(), b.to_vec());
            a.sort();
            b.sort();
            a == b
        }
    }

    pub use expr::{AggregateModifier, BinModifier, VectorMatchCardinality, VectorMatchModifier};
    pub use operator::Operator;
}

include!(concat!(env!("OUT_DIR"), "/binaryop.rs"));

pub mod label {
    include!(concat!(env!("OUT_DIR"), "/labels.rs"));

    pub use labels::Labels;

    /// Named by `MetricName::parse`, which is never called here.
    #[derive(Debug, Clone, Copy, PartialEq, Eq)]
    pub enum LabelFilterOp {
        Equal,
    }

    impl std::fmt::Display for LabelFilterOp {
        fn fmt(&self, f: &mut std::fmt::Formatter) -> std::fmt::Result {
            f.write_str("=")
        }
    }
}

mod common {
    use std::fmt::{Display, Formatter, Result};

    pub fn write_comma_separated<T: Display>(items: impl Iterator<Item = T>, f: &mut Formatter, parens: bool) -> Result {
        let list: Vec<String> = items.map(|i| i.to_string()).collect();
        if parens {
            write!(f, "({})", list.join(", "))
        } else {
            write!(f, "{}", list.join(", "))
        }
    }
}

pub mod parser {
    #[derive(Debug, Clone, PartialEq)]
    pub enum ParseError {
        General(String),
        Unsupported(String),
    }

    pub type ParseResult<T> = Result<T, ParseError>;

    pub mod tokens {
        /// The tokens that operator.rs turns into operators.
        #[derive(Debug)]
        pub enum Token {
            OpAnd,
            OpAtan2,
            OpDefault,
            OpDiv,
            OpEqual,
            OpGreaterThan,
            OpGreaterThanOrEqual,
            OpIf,
            OpIfNot,
            OpMod,
            OpMul,
            OpMinus,
            OpLessThan,
            OpLessThanOrEqual,
            OpNotEqual,
            OpOr,
            OpPow,
            OpUnless,
            OpPlus,
            Other,
        }
    }
}

pub mod prelude {
    pub use crate::ast::{AggregateModifier, BinModifier, VectorMatchCardinality, VectorMatchModifier};
    pub use crate::label::Labels;
}
