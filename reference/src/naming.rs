//! Test 9: numbers in order, and nothing named that isn't there.
//!
//! What a card has is judged by how many there are, wherever they stand, and
//! not by the numbers written on them.

use crate::image::Image;
use crate::record::{kind, Record};
use crate::tree::Card;
use crate::verdict::Refusal;

pub fn check(image: &Image, card: &Card) -> Result<(), Refusal> {
    let mut next = Next::default();
    for (at, record) in image.records.iter().enumerate() {
        if !(next.in_order(record) && present(record, card, image.text.len())) {
            return Err(Refusal::bad_name(at));
        }
    }
    Ok(())
}

/// The numbers that the next ENUM, DEF and CASE must have.
#[derive(Default)]
struct Next {
    enumeration: usize,
    function: usize,
    case: usize,
}

impl Next {
    fn in_order(&mut self, record: &Record) -> bool {
        let due = match record.kind {
            kind::ENUM => {
                self.case = 0;
                &mut self.enumeration
            }
            kind::DEF => &mut self.function,
            kind::CASE => &mut self.case,
            _ => return true,
        };
        let right = usize::from(record.b) == *due;
        *due += 1;
        right
    }
}

fn present(record: &Record, card: &Card, text_length: usize) -> bool {
    let number = usize::from(record.b);
    // Where C is used here, the test of fields has shown that it isn't negative.
    let c = usize::try_from(record.c).unwrap_or_default();
    match record.kind {
        // An ARM's case isn't judged here: that takes its subject's type.
        kind::TYPE => record.a != 4 || number < card.enums.len(),
        kind::CALL => number < card.functions.len(),
        kind::MAKE => card.enums.get(number).is_some_and(|named| c < named.cases.len()),
        kind::STR => number + c <= text_length,
        _ => true,
    }
}
