//! Test 9: numbers and what they name.

use super::{plain, two_enums};
use crate::image::Draft;
use crate::record::Record;
use crate::shorthand::*;
use crate::tree::Type;

pub fn drafts() -> Vec<Draft> {
    let mut drafts = plain(numbering());
    drafts.extend(plain(named_types()));
    drafts.extend(plain(named_things()));
    drafts.extend(texts());
    drafts.extend(plain(before_types()));
    drafts
}

fn bare_enum(number: u16) -> Vec<Record> {
    vec![enumeration(number), case(0, 0), CLOSE]
}

fn unit_function(number: u16) -> Vec<Record> {
    function(number, &[], Type::Unit, &[UNIT])
}

/// One enum with these numbers on its cases.
fn cases(numbers: &[u16]) -> Vec<Record> {
    let mut records = vec![enumeration(0)];
    records.extend(numbers.iter().map(|number| case(0, *number)));
    records.push(CLOSE);
    records
}

fn numbering() -> Vec<Vec<Record>> {
    let pairs = [(0, 0), (0, 1), (0, 2), (1, 0), (1, 1), (1, 2)];
    let mut cards = Vec::new();
    for (one, other) in pairs {
        cards.push([bare_enum(one), bare_enum(other)].concat());
        cards.push([unit_function(one), unit_function(other)].concat());
        cards.push([unit_function(0), bare_enum(one), unit_function(1), bare_enum(other)].concat());
        cards.push(cases(&[one, other]));
        cards.push([unit_function(one), cases(&[0, other])].concat());
    }
    // Cases count anew in each enum.
    cards.push([cases(&[0, 1]), vec![enumeration(1), case(0, 2), CLOSE]].concat());
    cards.push([cases(&[0, 1]), vec![enumeration(1), case(0, 0), case(0, 2), CLOSE]].concat());
    cards.push(cases(&[0, 1, 2, 3, 5, 4]));
    cards
}

/// A TYPE of each of these enums in each place that takes one.
fn named_types() -> Vec<Vec<Record>> {
    let mut cards = Vec::new();
    for number in [0, 1, 2, 31] {
        let named = of(Type::Enum(number));
        cards.push(vec![
            enumeration(0),
            case(1, 0),
            named,
            CLOSE,
            enumeration(1),
            case(0, 0),
            CLOSE,
        ]);
        cards.push([vec![def(1, 0), named, of(Type::Unit), UNIT, CLOSE], two_enums()].concat());
        cards.push([vec![def(0, 0), named, EXIT, named, text(0, 0), CLOSE], two_enums()].concat());
        let exit = [SEQ, EXIT, named, text(0, 0), UNIT];
        cards.push([two_enums(), body(Type::Unit, &exit)].concat());
        cards.push(body(Type::Unit, &exit));
    }
    // The number that an enum wears doesn't count, only how many there are.
    cards.push([vec![enumeration(0), case(1, 0), of(Type::Enum(1)), CLOSE], bare_enum(0)].concat());
    cards.push([vec![enumeration(0), case(1, 0), of(Type::Enum(5)), CLOSE], bare_enum(5)].concat());
    cards
}

fn named_things() -> Vec<Vec<Record>> {
    let mut cards = Vec::new();
    for number in [0, 1, 2, 63] {
        let calling = function(0, &[], Type::Unit, &[call(0, number)]);
        cards.push([calling.clone(), unit_function(1)].concat());
        cards.push([calling, unit_function(3)].concat());
    }
    for (number, chosen) in
        [(0, 0), (0, 1), (0, 2), (1, 0), (1, 1), (1, 2), (2, 0), (31, 0), (0, 15)]
    {
        let making = [SEQ, make(0, number, chosen), UNIT];
        cards.push([cases(&[0, 1]), bare_enum(1), body(Type::Unit, &making)].concat());
        cards.push(
            [
                body(Type::Unit, &making),
                bare_enum(0),
                vec![enumeration(1), case(0, 0), case(0, 1), CLOSE],
            ]
            .concat(),
        );
    }
    // A foreign case of an arm isn't this fault.
    cards.push(
        [bare_enum(0), body(Type::Unit, &[MATCH, make(0, 0, 0), arm(0, 0, 15), UNIT, CLOSE])]
            .concat(),
    );
    // The lowest record counts, whichever of these faults it has.
    cards.push([body(Type::Unit, &[call(0, 7)]), bare_enum(4)].concat());
    cards.push([bare_enum(4), body(Type::Unit, &[call(0, 7)])].concat());
    cards.push(body(Type::Unit, &[SEQ, text(1, 0), call(0, 7)]));
    cards
}

/// Texts that end at the last text byte or past it.
fn texts() -> Vec<Draft> {
    let bytes: Vec<u8> = (0..30).collect();
    let mut drafts = Vec::new();
    for count in [0, 1, 24, 30] {
        for length in [0, 1, 24] {
            for past in [0, 1, 2] {
                let end = count + past;
                if let Some(place) = u16::checked_sub(end, length) {
                    let records = body(Type::Text, &[text(place, i32::from(length))]);
                    drafts.push(Draft::new(records, &bytes[..usize::from(count)]));
                }
            }
        }
    }
    for place in [255, 256, 65_512, 65_535] {
        drafts.push(Draft::new(body(Type::Text, &[text(place, 24)]), &bytes));
        drafts.push(Draft::new(body(Type::Text, &[text(place, 0)]), &bytes));
    }
    drafts
}

/// A fault of this kind behind one of types.
fn before_types() -> Vec<Vec<Record>> {
    vec![
        [body(Type::Unit, &[local(9)]), unit_function(2)].concat(),
        [body(Type::Unit, &[num(9)]), bare_enum(1)].concat(),
        body(Type::Unit, &[SEQ, ADD, UNIT, UNIT, call(0, 1)]),
        [body(Type::Unit, &[call(1, 0), local(1)]), cases(&[0, 2])].concat(),
    ]
}
