//! A second checker and runner of card images, written plainly from the rules,
//! and a generator of images and runs on which two of them can be compared.

#![forbid(unsafe_code)]

pub mod compare;
pub mod ended;
pub mod entries;
pub mod fields;
pub mod generate;
pub mod image;
pub mod naming;
pub mod parse;
pub mod random;
pub mod record;
pub mod run;
pub mod scope;
pub mod shorthand;
pub mod start;
pub mod store;
pub mod tally;
pub mod tree;
pub mod typing;
pub mod verdict;

use tree::Card;
use verdict::{Refusal, Verdict};

/// Decides whether an image is a card, and if not, why.
pub fn check(image: &[u8]) -> Verdict {
    match load(image) {
        Ok(card) => Verdict::Accepted { enums: card.enums.len(), functions: card.functions.len() },
        Err(refusal) => Verdict::Refused(refusal),
    }
}

/// Reads a card that is accepted. The tests come in their order; each is a
/// whole pass before the next begins.
pub fn load(image: &[u8]) -> Result<Card, Refusal> {
    let image = image::read(image)?;
    fields::check(&image.records)?;
    let card = parse::parse(&image)?;
    naming::check(&image, &card)?;
    typing::check(&card)?;
    Ok(card)
}
