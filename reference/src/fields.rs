//! Test 7: each record by itself, its kind and its fields.

use crate::record::{kind, Record};
use crate::verdict::Refusal;

/// Names are 16 bits wide, so an arm's names must end by here.
const NAMES: u32 = 65_536;

/// Finds the lowest record with an unknown kind or a field outside its range.
pub fn check(records: &[Record]) -> Result<(), Refusal> {
    match records.iter().position(|record| !sound(record)) {
        Some(at) => Err(Refusal::bad_field(at)),
        None => Ok(()),
    }
}

/// A field that a kind doesn't use must be 0.
fn sound(record: &Record) -> bool {
    let Record { kind, a, b, c } = *record;
    match kind {
        kind::CLOSE | kind::UNIT | kind::ADD..=kind::IF | kind::MATCH | kind::EXIT => {
            a == 0 && b == 0 && c == 0
        }
        kind::ENUM => a == 0 && b <= 31 && c == 0,
        kind::CASE => a <= 4 && b <= 15 && c == 0,
        kind::DEF | kind::CALL => a <= 4 && b <= 63 && c == 0,
        kind::TYPE => c == 0 && (a <= 3 && b == 0 || a == 4 && b <= 31),
        kind::NUM => a == 0 && b == 0,
        kind::BOOL => a <= 1 && b == 0 && c == 0,
        // Where the text lies is judged later, against the count of text bytes.
        kind::STR => a == 0 && (0..=24).contains(&c),
        kind::LOCAL | kind::VAL => a == 0 && c == 0,
        kind::MAKE => a <= 4 && b <= 31 && (0..=15).contains(&c),
        kind::ARM => a <= 4 && (0..=15).contains(&c) && u32::from(a) + u32::from(b) <= NAMES,
        _ => false,
    }
}
