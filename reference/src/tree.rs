//! A well-formed card as a tree.

use crate::record::Record;

#[derive(Clone, Copy, Debug, PartialEq, Eq)]
pub enum Type {
    Unit,
    Number,
    Boolean,
    Text,
    Enum(u16),
}

impl Type {
    /// The type that a TYPE record with fields in range stands for.
    pub fn of(record: &Record) -> Type {
        match record.a {
            0 => Type::Unit,
            1 => Type::Number,
            2 => Type::Boolean,
            3 => Type::Text,
            _ => Type::Enum(record.b),
        }
    }
}

#[derive(Clone, Debug, Default)]
pub struct Card {
    pub enums: Vec<Enum>,
    pub functions: Vec<Function>,
    /// The bytes that texts are runs of.
    pub text: Vec<u8>,
}

/// An enum: for each case, the types of its fields.
#[derive(Clone, Debug)]
pub struct Enum {
    pub cases: Vec<Vec<Type>>,
}

#[derive(Clone, Debug)]
pub struct Function {
    pub at: usize,
    pub parameters: Vec<Type>,
    pub result: Type,
    pub body: Expr,
}

/// An expression and the record that it begins with.
#[derive(Clone, Debug)]
pub struct Expr {
    pub at: usize,
    pub form: Form,
}

#[derive(Clone, Debug)]
pub enum Form {
    Unit,
    Number(i32),
    Boolean(bool),
    Text { place: usize, length: usize },
    Local(u16),
    Arithmetic(Sign, Box<[Expr; 2]>),
    Concat(Box<[Expr; 2]>),
    Equal(Box<[Expr; 2]>),
    Less(Box<[Expr; 2]>),
    Sequence(Box<[Expr; 2]>),
    If(Box<[Expr; 3]>),
    Val { name: u16, parts: Box<[Expr; 2]> },
    Call { function: usize, arguments: Vec<Expr> },
    Make { number: u16, case: usize, arguments: Vec<Expr> },
    Match { subject: Box<Expr>, arms: Vec<Arm> },
    Exit { result: Type, text: Box<Expr> },
}

#[derive(Clone, Copy, Debug, PartialEq, Eq)]
pub enum Sign {
    Add,
    Mul,
    Div,
    Mod,
}

#[derive(Clone, Debug)]
pub struct Arm {
    pub case: usize,
    pub names: usize,
    pub first: u16,
    pub body: Expr,
}
