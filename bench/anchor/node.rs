//! A checked filter: its nodes, each after those below it.
use crate::literal::Value;
use crate::types::Type;

#[derive(Clone, Copy, PartialEq, Eq)]
pub enum Form {
    Literal(u32),
    It,
    Property(u32),
    Variable(u32),
    Member(u32),
    Count,
    AnyItem,
    Any,
    All,
    Negation,
    Not,
    Binary(Operator),
    Has,
    InList,
    InPath,
    Call(u32),
    /// An operator beside an enumeration's text, with the number of its value.
    Named(Operator, u32),
    NamedHas(u32),
    NamedList(u32),
}

#[derive(Clone, Copy, PartialEq, Eq)]
pub enum Operator {
    Or,
    And,
    Eq,
    Ne,
    Gt,
    Ge,
    Lt,
    Le,
    Add,
    Sub,
    Mul,
    Div,
    Mod,
}

pub const WORDS: [&str; 13] = ["or", "and", "eq", "ne", "gt", "ge", "lt", "le", "add", "sub", "mul", "div", "mod"];
pub const LEVELS: [u8; 13] = [1, 2, 3, 3, 4, 4, 4, 4, 5, 5, 6, 6, 6];
pub const UNARY: u8 = 7;
pub const PRIMARY: u8 = 8;
pub const BASE: u8 = 9;
pub const PATH: u8 = 10;

#[derive(Clone, Copy)]
pub struct Node {
    pub form: Form,
    pub kind: Type,
    pub start: u32,
    pub stop: u32,
    /// The first of its tree's nodes.
    pub first: u32,
    /// The name or the literal in the text.
    pub text: (u32, u32),
}

pub struct Checked {
    pub text: String,
    pub nodes: Vec<Node>,
    pub values: Vec<Value>,
}
