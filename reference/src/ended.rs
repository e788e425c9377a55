//! How runs end, and what is to be seen of one while it goes on.

use std::fmt;

use crate::store::{Cell, Value};

#[derive(Clone, Copy, Debug, PartialEq, Eq, PartialOrd, Ord)]
#[repr(u8)]
pub enum Ending {
    Value = 0,
    Exit = 1,
    ZeroDivisor = 2,
    OutOfRange = 3,
    LongText = 4,
    FullStore = 5,
    TooDeep = 6,
    Overrun = 7,
}

impl Ending {
    pub const ALL: [Ending; 8] = [
        Ending::Value,
        Ending::Exit,
        Ending::ZeroDivisor,
        Ending::OutOfRange,
        Ending::LongText,
        Ending::FullStore,
        Ending::TooDeep,
        Ending::Overrun,
    ];

    pub fn number(self) -> u8 {
        self as u8
    }
}

/// A run that has ended.
#[derive(Clone, Debug, PartialEq, Eq)]
pub struct Ended {
    pub ending: Ending,
    /// The record that the ending names; a value names none.
    pub record: Option<usize>,
    /// The value that the run came to, or the text of its exit.
    pub value: Option<Value>,
    /// How many judgements were opened, the one too deep among them.
    pub units: u32,
    pub cells: Vec<Cell>,
}

/// What a plotter shows of a run.
#[derive(Clone, Copy, Debug, PartialEq, Eq)]
pub enum Shown<'a> {
    Ended(&'a Ended),
    /// Not ended yet, with all units spent that were granted.
    Going {
        units: u32,
    },
}

/// What a plotter shows of this run after so many units in all. In what turns
/// they were granted makes no difference.
pub fn granted(ended: &Ended, units: u32) -> Shown<'_> {
    if ended.units <= units {
        Shown::Ended(ended)
    } else {
        Shown::Going { units }
    }
}

impl fmt::Display for Ended {
    fn fmt(&self, out: &mut fmt::Formatter<'_>) -> fmt::Result {
        let record = self.record.map_or("-".to_string(), |record| record.to_string());
        let value = self.value.map_or("-".to_string(), |value| value.to_string());
        write!(out, "{} {record} {} {value} ", self.ending.number(), self.units)?;
        match self.cells.split_first() {
            None => write!(out, "-"),
            Some((first, others)) => {
                write!(out, "{first}")?;
                others.iter().try_for_each(|cell| write!(out, ";{cell}"))
            }
        }
    }
}

#[cfg(test)]
mod tests {
    use super::*;

    #[test]
    fn prints_one_line() {
        let mut ended = Ended {
            ending: Ending::Value,
            record: None,
            value: Some(Value::Number(-3)),
            units: 1,
            cells: vec![],
        };
        assert_eq!(ended.to_string(), "0 - 1 -3 -");
        ended.cells = vec![Cell::Text(b"a".to_vec()), Cell::Text(vec![])];
        assert_eq!(ended.to_string(), "0 - 1 -3 x61;x");
        let overrun = Ended { ending: Ending::Overrun, record: Some(12), value: None, ..ended };
        assert_eq!(overrun.to_string(), "7 12 1 - x61;x");
    }

    #[test]
    fn endings_are_numbered_in_order() {
        assert!(Ending::ALL.iter().map(|ending| ending.number()).eq(0..8));
    }
}
