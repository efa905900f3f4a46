//! A question, and an answer to it.

use crate::types::WType;
use std::fmt;

/// Document 01's unary operators, by number.
pub const UNARY: [&str; 5] = ["!", "-", "~", "&", "*"];

/// Document 01's binary operators, by number.
pub const BINARY: [&str; 18] = [
    "||", "&&", "+", "-", "*", "/", "%", "==", "!=", "<", "<=", ">", ">=", "|", "&", "^", "<<",
    ">>",
];

/// Document 02's profiles: the builtins without those of subgroups and quads, and with them. The crate has no profile; every question is put in that which has
/// all names.
pub mod profile {
    pub const BASE: u32 = 0;
    pub const SUBGROUPS: u32 = 1;
}

/// What is asked for.
#[derive(Clone, Copy, Debug, PartialEq, Eq, PartialOrd, Ord, Hash)]
pub enum Operation {
    Unary(usize),
    Binary(usize),
    Call(&'static str),
    Template(&'static str),
}

/// An argument of a template list.
#[derive(Clone, Debug, PartialEq, Eq)]
pub enum Argument {
    Type(WType),
    AbstractInt(i64),
    I32(i32),
    U32(u32),
    /// A literal of bool.
    Bool(bool),
    /// A literal of f32, by its bits.
    F32(u32),
}

impl fmt::Display for Argument {
    fn fmt(&self, f: &mut fmt::Formatter<'_>) -> fmt::Result {
        match self {
            Argument::Type(ty) => write!(f, "{ty}"),
            Argument::AbstractInt(n) => write!(f, "{n}"),
            Argument::I32(n) => write!(f, "{n}i"),
            Argument::U32(n) => write!(f, "{n}u"),
            Argument::Bool(b) => write!(f, "{b}"),
            Argument::F32(bits) => write!(f, "{:?}f", f32::from_bits(*bits)),
        }
    }
}

/// A question: an operation, its template list (empty where there is none), its operands, and of each whether it is known only when running (empty where all are
/// const-expressions, as the crate takes them).
#[derive(Clone, Copy, Debug)]
pub struct Case<'a> {
    pub operation: Operation,
    pub template: &'a [Argument],
    pub operands: &'a [&'a WType],
    pub running: &'a [bool],
}

impl Case<'_> {
    /// Whether the operand of that place is known only when running.
    pub fn runs(&self, place: usize) -> bool {
        self.running.get(place) == Some(&true)
    }
    /// The name or sign of the operation.
    pub fn sign(&self) -> &'static str {
        match self.operation {
            Operation::Unary(op) => UNARY[op],
            Operation::Binary(op) => BINARY[op],
            Operation::Call(name) | Operation::Template(name) => name,
        }
    }
}

fn list<T: fmt::Display>(items: &[T], between: &str) -> String {
    let spelled: Vec<String> = items.iter().map(T::to_string).collect();
    spelled.join(between)
}

impl fmt::Display for Case<'_> {
    fn fmt(&self, f: &mut fmt::Formatter<'_>) -> fmt::Result {
        let template = match self.template {
            [] => String::new(),
            some => format!("<{}>", list(some, ",")),
        };
        let marked =
            |(i, ty): (usize, &&WType)| format!("{ty}{}", if self.runs(i) { "*" } else { "" });
        let operands: Vec<String> = self.operands.iter().enumerate().map(marked).collect();
        match (self.operation, &operands[..]) {
            (Operation::Unary(op), [a]) => write!(f, "{}{a}", UNARY[op]),
            (Operation::Binary(op), [a, b]) => write!(f, "{a} {} {b}", BINARY[op]),
            (Operation::Template(head), _) => write!(f, "{head}{template}"),
            _ => write!(f, "{}{template}({})", self.sign(), operands.join(", ")),
        }
    }
}

/// An answer.
#[derive(Clone, Debug, PartialEq, Eq)]
pub enum Answer {
    Type(WType),
    NoValue,
    /// Refused, with document 01's number, or 0 for the crate, which has none.
    Refused(u32),
    /// The crate's code panicked.
    Panicked,
}

impl Answer {
    pub fn is_refused(&self) -> bool {
        matches!(self, Answer::Refused(_))
    }
    /// Equal, but for the number of a refusal.
    pub fn agrees(&self, other: &Answer) -> bool {
        self == other || self.is_refused() && other.is_refused()
    }
}

impl fmt::Display for Answer {
    fn fmt(&self, f: &mut fmt::Formatter<'_>) -> fmt::Result {
        match self {
            Answer::Type(ty) => write!(f, "{ty}"),
            Answer::NoValue => f.write_str("no value"),
            Answer::Refused(0) => f.write_str("refused"),
            Answer::Refused(number) => write!(f, "refused {number}"),
            Answer::Panicked => f.write_str("a panic"),
        }
    }
}
