//! The start of a run: what it takes before the first judgement.

use std::error::Error;
use std::fmt;
use std::str::FromStr;

use crate::store::{Cell, Store, Value, MOST_BYTES};
use crate::tree::{Card, Function, Type};

/// What a function can be run on. Enum values can't be handed in.
#[derive(Clone, Debug, PartialEq, Eq)]
pub enum Argument {
    Unit,
    Number(i32),
    Boolean(bool),
    Text(Vec<u8>),
}

/// Why a run has no ending.
#[derive(Clone, Copy, Debug, PartialEq, Eq)]
pub enum Fault {
    NoFunction,
    /// Too few or too many arguments.
    WrongCount,
    /// This argument, counted from 0, isn't of its parameter's type.
    WrongType(usize),
    /// This argument is a text of too many bytes.
    LongText(usize),
    /// The texts among the arguments don't fit the store.
    FullStore,
    /// No rule applies at this record. That befalls no card that is accepted.
    Stuck(usize),
}

/// A function on its arguments, whose texts are the store's first cells.
pub struct Started<'a> {
    pub function: &'a Function,
    pub values: Vec<Value>,
    pub store: Store,
}

/// Tries the function, the count of arguments, then one argument after
/// another, and only then puts the texts.
pub fn start<'a>(
    card: &'a Card,
    function: usize,
    arguments: &[Argument],
    most: u16,
) -> Result<Started<'a>, Fault> {
    let function = card.functions.get(function).ok_or(Fault::NoFunction)?;
    if arguments.len() != function.parameters.len() {
        return Err(Fault::WrongCount);
    }
    for (at, (argument, parameter)) in arguments.iter().zip(&function.parameters).enumerate() {
        argument.check(at, *parameter)?;
    }
    let mut store = Store::new(most);
    let values: Option<Vec<Value>> =
        arguments.iter().map(|argument| argument.value(&mut store)).collect();
    Ok(Started { function, values: values.ok_or(Fault::FullStore)?, store })
}

impl Argument {
    fn check(&self, at: usize, parameter: Type) -> Result<(), Fault> {
        match (self, parameter) {
            (Argument::Text(bytes), Type::Text) if bytes.len() > MOST_BYTES => {
                Err(Fault::LongText(at))
            }
            (Argument::Unit, Type::Unit)
            | (Argument::Number(_), Type::Number)
            | (Argument::Boolean(_), Type::Boolean)
            | (Argument::Text(_), Type::Text) => Ok(()),
            _ => Err(Fault::WrongType(at)),
        }
    }

    /// The value that the body sees; nothing if the store is full.
    fn value(&self, store: &mut Store) -> Option<Value> {
        match self {
            Argument::Unit => Some(Value::Unit),
            Argument::Number(number) => Some(Value::Number(*number)),
            Argument::Boolean(truth) => Some(Value::Boolean(*truth)),
            Argument::Text(bytes) => store.put(Cell::Text(bytes.clone())).map(Value::Place),
        }
    }
}

/// `unit`, `true`, `false`, a number, a text as `=` with its letters or as `x`
/// with its bytes in hexadecimal.
impl FromStr for Argument {
    type Err = String;

    fn from_str(word: &str) -> Result<Self, String> {
        if let Some(letters) = word.strip_prefix('=') {
            return Ok(Argument::Text(letters.into()));
        }
        if let Some(digits) = word.strip_prefix('x') {
            let bytes = bytes_of(digits).ok_or_else(|| format!("no bytes: {word}"))?;
            return Ok(Argument::Text(bytes));
        }
        match word {
            "unit" => Ok(Argument::Unit),
            "true" => Ok(Argument::Boolean(true)),
            "false" => Ok(Argument::Boolean(false)),
            _ => word.parse().map(Argument::Number).map_err(|_| format!("no argument: {word}")),
        }
    }
}

/// The bytes that these hexadecimal digits, two for each, stand for.
fn bytes_of(digits: &str) -> Option<Vec<u8>> {
    let digits: Option<Vec<u8>> =
        digits.chars().map(|digit| digit.to_digit(16).map(|value| value as u8)).collect();
    let digits = digits.filter(|digits| digits.len() % 2 == 0)?;
    Some(digits.chunks(2).map(|pair| 16 * pair[0] + pair[1]).collect())
}

impl fmt::Display for Fault {
    fn fmt(&self, out: &mut fmt::Formatter<'_>) -> fmt::Result {
        match self {
            Fault::NoFunction => write!(out, "the card has no such function"),
            Fault::WrongCount => write!(out, "too few or too many arguments"),
            Fault::WrongType(at) => write!(out, "argument {at} is of a wrong type"),
            Fault::LongText(at) => write!(out, "argument {at} is too long a text"),
            Fault::FullStore => write!(out, "the texts don't fit the store"),
            Fault::Stuck(record) => write!(out, "stuck at record {record}"),
        }
    }
}

impl Error for Fault {}

#[cfg(test)]
mod tests {
    use super::*;

    fn text(bytes: &[u8]) -> Result<Argument, String> {
        Ok(Argument::Text(bytes.to_vec()))
    }

    #[test]
    fn reads_arguments() {
        assert_eq!("unit".parse(), Ok(Argument::Unit));
        assert_eq!("false".parse(), Ok(Argument::Boolean(false)));
        assert_eq!("-2147483648".parse(), Ok(Argument::Number(i32::MIN)));
        assert_eq!("=Spit".parse(), text(b"Spit"));
        assert_eq!("=x00".parse(), text(b"x00"));
        assert_eq!("=".parse(), text(b""));
        assert_eq!("x".parse(), text(b""));
        assert_eq!("x00fF".parse(), text(&[0, 255]));
    }

    #[test]
    fn reads_nothing_else() {
        for word in ["", "Unit", "2147483648", "1.5", "x0", "xxy", "x+1", "@0"] {
            assert!(word.parse::<Argument>().is_err(), "{word}");
        }
    }
}
