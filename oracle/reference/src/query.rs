//! The query.
use crate::{Refusal, MAX_ALLOWANCE};

/// "Operators are numbered 0 to 18 as `Operator` lists them, 0 `Add` to 18 `Unless`."
#[derive(Clone, Copy, Debug, PartialEq, Eq)]
#[repr(u8)]
pub enum Operator {
    Add,
    And,
    Atan2,
    Default,
    Div,
    Eql,
    Mod,
    Mul,
    Pow,
    Sub,
    Gt,
    Gte,
    If,
    IfNot,
    Lt,
    Lte,
    NotEq,
    Or,
    Unless,
}

impl Operator {
    pub const ALL: [Operator; 19] = {
        use Operator::*;
        [Add, And, Atan2, Default, Div, Eql, Mod, Mul, Pow, Sub, Gt, Gte, If, IfNot, Lt, Lte, NotEq, Or, Unless]
    };

    pub fn is_comparison(self) -> bool {
        use Operator::*;
        matches!(self, Eql | NotEq | Gt | Gte | Lt | Lte)
    }

    /// The set rules.
    pub fn is_logical_op(self) -> bool {
        use Operator::*;
        matches!(self, And | Or | Unless | If | IfNot | Default)
    }

    /// "1, operator above 18, or 2 or 8".
    pub fn is_carried(self) -> bool {
        !matches!(self, Operator::Atan2 | Operator::Pow)
    }

    pub fn spelling(self) -> &'static str {
        use Operator::*;
        match self {
            Add => "+",
            And => "and",
            Atan2 => "atan2",
            Default => "default",
            Div => "/",
            Eql => "==",
            Mod => "%",
            Mul => "*",
            Pow => "^",
            Sub => "-",
            Gt => ">",
            Gte => ">=",
            If => "if",
            IfNot => "ifnot",
            Lt => "<",
            Lte => "<=",
            NotEq => "!=",
            Or => "or",
            Unless => "unless",
        }
    }
}

/// "matching byte (0 none, 1 on, 2 ignoring)".
#[derive(Clone, Copy, Debug, PartialEq, Eq)]
pub enum Matching {
    None,
    On,
    Ignoring,
}

/// "join byte (0 one-to-one, 1 group_left, 2 group_right, 3 many-to-many, run as 0)".
#[derive(Clone, Copy, Debug, PartialEq, Eq)]
pub enum Join {
    OneToOne,
    GroupLeft,
    GroupRight,
    ManyToMany,
}

#[derive(Clone, Debug, PartialEq, Eq)]
pub struct Query {
    pub op: Operator,
    pub matching: Matching,
    pub join: Join,
    pub keep_names: bool,
    pub bool_flag: bool,
    pub matching_list: Vec<Vec<u8>>,
    pub join_list: Vec<Vec<u8>>,
    pub allowance: usize,
}

/// "Taking a query: 1, operator above 18, or 2 or 8; then 2, the query otherwise not as above, bytes left over included." An
/// empty query has no operator byte to refuse: it is 2. 02: "13, an allowance above 8, after number 2".
pub fn take_query(bytes: &[u8]) -> Result<Query, Refusal> {
    if let Some(&byte) = bytes.first() {
        if !Operator::ALL.get(usize::from(byte)).is_some_and(|op| op.is_carried()) {
            return Err(Refusal::new(1, 0, 0));
        }
    }
    let query = well_formed(bytes).ok_or(Refusal::new(2, 0, 0))?;
    if query.allowance > MAX_ALLOWANCE {
        return Err(Refusal::new(13, 0, 0));
    }
    Ok(query)
}

fn well_formed(bytes: &[u8]) -> Option<Query> {
    let (&[op, matching, join, flags], mut rest) = bytes.split_first_chunk::<4>()?;
    let op = Operator::ALL[usize::from(op)];
    let matching = *[Matching::None, Matching::On, Matching::Ignoring].get(usize::from(matching))?;
    let join = *[Join::OneToOne, Join::GroupLeft, Join::GroupRight, Join::ManyToMany].get(usize::from(join))?;
    // "flag byte (0 neither, 1 keep names, 2 bool, 3 both)"
    if flags > 3 {
        return None;
    }
    let matching_list = take_list(&mut rest)?;
    let join_list = take_list(&mut rest)?;
    // "Matching 0 has an empty matching list, joins 0 and 3 an empty join list."
    if matching == Matching::None && !matching_list.is_empty() {
        return None;
    }
    if matches!(join, Join::OneToOne | Join::ManyToMany) && !join_list.is_empty() {
        return None;
    }
    // 02: "The query gains a last byte, behind the join list".
    let &[allowance] = rest else {
        return None;
    };
    let (keep_names, bool_flag) = (flags & 1 != 0, flags & 2 != 0);
    Some(Query { op, matching, join, keep_names, bool_flag, matching_list, join_list, allowance: usize::from(allowance) })
}

/// "A list is a count byte 0 to 32, then labels, each a length byte 1 to 255 and its bytes."
pub fn take_list(rest: &mut &[u8]) -> Option<Vec<Vec<u8>>> {
    let (&count, mut tail) = rest.split_first()?;
    if count > 32 {
        return None;
    }
    let mut list = Vec::new();
    for _ in 0..count {
        let (&length, after) = tail.split_first()?;
        if length == 0 {
            return None;
        }
        let (label, after) = after.split_at_checked(usize::from(length))?;
        list.push(label.to_vec());
        tail = after;
    }
    *rest = tail;
    Some(list)
}

impl Query {
    /// The bytes that `take_query` takes back.
    pub fn bytes(&self) -> Vec<u8> {
        let flags = u8::from(self.keep_names) + 2 * u8::from(self.bool_flag);
        let mut out = vec![self.op as u8, self.matching as u8, self.join as u8, flags];
        for list in [&self.matching_list, &self.join_list] {
            put_list(&mut out, list);
        }
        out.push(self.allowance as u8);
        out
    }
}

/// Writes the bytes that `take_list` takes back.
pub fn put_list(out: &mut Vec<u8>, list: &[Vec<u8>]) {
    out.push(list.len() as u8);
    for label in list {
        out.push(label.len() as u8);
        out.extend_from_slice(label);
    }
}
