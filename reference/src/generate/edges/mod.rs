//! Images written out by hand at the edges of every rule.

mod counts;
mod fields;
mod header;
mod large;
mod names;
mod order;
mod types;

use crate::image::Draft;
use crate::record::Record;
use crate::shorthand::*;
use crate::tree::Type;

pub fn images() -> Vec<Vec<u8>> {
    let mut images = header::images();
    let drafts = [
        fields::drafts(),
        order::drafts(),
        names::drafts(),
        types::drafts(),
        counts::drafts(),
        large::drafts(),
    ];
    images.extend(drafts.iter().flatten().map(Draft::image));
    images
}

/// Drafts without text.
fn plain(cards: impl IntoIterator<Item = Vec<Record>>) -> Vec<Draft> {
    cards.into_iter().map(|records| Draft::new(records, b"")).collect()
}

/// Every type that a card with two enums can name.
const TYPES: [Type; 6] =
    [Type::Unit, Type::Number, Type::Boolean, Type::Text, Type::Enum(0), Type::Enum(1)];

/// Two enums, each with a bare case 0; the first has a case of a text too, and
/// the second a case of a number and a value of the first.
fn two_enums() -> Vec<Record> {
    vec![
        enumeration(0),
        case(0, 0),
        case(1, 1),
        of(Type::Text),
        CLOSE,
        enumeration(1),
        case(0, 0),
        case(2, 1),
        of(Type::Number),
        of(Type::Enum(0)),
        CLOSE,
    ]
}

/// Some one-record expression of a type of `two_enums`.
fn sample(wanted: Type) -> Record {
    match wanted {
        Type::Unit => UNIT,
        Type::Number => num(7),
        Type::Boolean => boolean(true),
        Type::Text => text(0, 0),
        Type::Enum(number) => make(0, number, 0),
    }
}

/// The two enums and then a function that takes nothing.
fn with_enums(result: Type, expression: &[Record]) -> Vec<Record> {
    [two_enums(), body(result, expression)].concat()
}
