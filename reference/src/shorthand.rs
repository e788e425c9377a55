//! Short names for writing cards by hand.

use crate::image::Draft;
use crate::record::{kind, Record};
use crate::tree::Type;

pub const CLOSE: Record = bare(kind::CLOSE);
pub const UNIT: Record = bare(kind::UNIT);
pub const ADD: Record = bare(kind::ADD);
pub const MUL: Record = bare(kind::MUL);
pub const DIV: Record = bare(kind::DIV);
pub const MOD: Record = bare(kind::MOD);
pub const CONCAT: Record = bare(kind::CONCAT);
pub const EQ: Record = bare(kind::EQ);
pub const LT: Record = bare(kind::LT);
pub const SEQ: Record = bare(kind::SEQ);
pub const IF: Record = bare(kind::IF);
pub const MATCH: Record = bare(kind::MATCH);
pub const EXIT: Record = bare(kind::EXIT);

/// A record of this kind whose fields are all 0.
pub const fn bare(kind: u8) -> Record {
    Record::new(kind, 0, 0, 0)
}

pub fn enumeration(number: u16) -> Record {
    Record::new(kind::ENUM, 0, number, 0)
}

pub fn case(fields: u8, number: u16) -> Record {
    Record::new(kind::CASE, fields, number, 0)
}

pub fn def(parameters: u8, number: u16) -> Record {
    Record::new(kind::DEF, parameters, number, 0)
}

pub fn of(named: Type) -> Record {
    let (a, b) = match named {
        Type::Unit => (0, 0),
        Type::Number => (1, 0),
        Type::Boolean => (2, 0),
        Type::Text => (3, 0),
        Type::Enum(number) => (4, number),
    };
    Record::new(kind::TYPE, a, b, 0)
}

pub fn num(value: i32) -> Record {
    Record::new(kind::NUM, 0, 0, value)
}

pub fn boolean(value: bool) -> Record {
    Record::new(kind::BOOL, u8::from(value), 0, 0)
}

pub fn text(place: u16, length: i32) -> Record {
    Record::new(kind::STR, 0, place, length)
}

pub fn local(name: u16) -> Record {
    Record::new(kind::LOCAL, 0, name, 0)
}

pub fn val(name: u16) -> Record {
    Record::new(kind::VAL, 0, name, 0)
}

pub fn call(arguments: u8, function: u16) -> Record {
    Record::new(kind::CALL, arguments, function, 0)
}

pub fn make(arguments: u8, number: u16, case: i32) -> Record {
    Record::new(kind::MAKE, arguments, number, case)
}

pub fn arm(names: u8, first: u16, case: i32) -> Record {
    Record::new(kind::ARM, names, first, case)
}

/// A card with one function, number 0, that takes nothing.
pub fn body(result: Type, expression: &[Record]) -> Vec<Record> {
    function(0, &[], result, expression)
}

pub fn function(
    number: u16,
    parameters: &[Type],
    result: Type,
    expression: &[Record],
) -> Vec<Record> {
    let mut records = vec![def(parameters.len() as u8, number)];
    records.extend(parameters.iter().map(|parameter| of(*parameter)));
    records.push(of(result));
    records.extend(expression);
    records.push(CLOSE);
    records
}

/// The worked card: an enum with a bare case and a case of a text, and a
/// function that wraps its text when its number is below 50,000.
pub fn card_k() -> Draft {
    let mut records = vec![enumeration(0), case(0, 0), case(1, 1), of(Type::Text), CLOSE];
    records.extend(function(
        0,
        &[Type::Number, Type::Text],
        Type::Enum(0),
        &[IF, LT, local(0), num(50_000), make(1, 0, 1), local(1), make(0, 0, 0)],
    ));
    Draft::new(records, b"")
}
