//! Tests 10 and 11: names and the types of operators, IF, VAL, EXIT and bodies.

use super::{plain, sample, with_enums, TYPES};
use crate::image::Draft;
use crate::record::Record;
use crate::shorthand::*;
use crate::tree::Type;

pub fn drafts() -> Vec<Draft> {
    let mut cards = operators();
    cards.extend(conditions());
    cards.extend(bodies_and_exits());
    cards.extend(names());
    cards.extend(in_order());
    plain(cards)
}

/// ADD and EQ over each pair of types, the others over a third of the pairs.
fn operators() -> Vec<Vec<Record>> {
    let mut cards = Vec::new();
    for (left_at, left) in TYPES.into_iter().enumerate() {
        for (right_at, right) in TYPES.into_iter().enumerate() {
            let mut signs = vec![(ADD, Type::Number), (EQ, Type::Boolean)];
            // These pairs are two numbers and two texts among others.
            if left_at == right_at || (left_at + right_at) % 5 == 4 {
                signs.extend([MUL, DIV, MOD].map(|sign| (sign, Type::Number)));
                signs.extend([(CONCAT, Type::Text), (LT, Type::Boolean), (SEQ, right)]);
            }
            for (sign, result) in signs {
                cards.push(with_enums(result, &[sign, sample(left), sample(right)]));
            }
        }
    }
    cards
}

fn conditions() -> Vec<Vec<Record>> {
    let mut cards = Vec::new();
    for first in TYPES {
        cards.push(with_enums(Type::Unit, &[IF, sample(first), UNIT, UNIT]));
        cards.push(with_enums(first, &[IF, boolean(true), sample(first), sample(first)]));
        cards.push(with_enums(first, &[IF, boolean(true), sample(first), num(1)]));
        cards.push(with_enums(first, &[IF, boolean(false), text(0, 0), sample(first)]));
    }
    // The branch that a constant condition leaves out is typed all the same.
    cards.push(body(Type::Unit, &[IF, boolean(true), UNIT, local(0)]));
    cards.push(body(Type::Unit, &[IF, boolean(false), local(0), UNIT]));
    cards.push(body(Type::Unit, &[IF, boolean(true), UNIT, SEQ, ADD, UNIT, UNIT, UNIT]));
    cards
}

fn bodies_and_exits() -> Vec<Vec<Record>> {
    let mut cards = Vec::new();
    for declared in TYPES {
        for found in TYPES {
            cards.push(with_enums(declared, &[sample(found)]));
        }
        cards.push(with_enums(declared, &[EXIT, of(declared), text(0, 0)]));
        cards.push(with_enums(Type::Number, &[EXIT, of(declared), text(0, 0)]));
        cards.push(with_enums(Type::Text, &[EXIT, of(Type::Text), sample(declared)]));
    }
    cards.push(body(Type::Unit, &[EXIT, of(Type::Unit), EXIT, of(Type::Text), text(0, 0)]));
    cards.push(body(Type::Unit, &[EXIT, of(Type::Unit), EXIT, of(Type::Number), text(0, 0)]));
    cards.push(body(Type::Number, &[ADD, EXIT, of(Type::Number), text(0, 0), num(1)]));
    cards
}

fn names() -> Vec<Vec<Record>> {
    let (number, text_type) = (Type::Number, Type::Text);
    let mut cards = Vec::new();
    for name in [0, 1, 2, 3, 4, 5, 255, 256, 257, 65_535] {
        // Parameters are named from 0 on.
        let parameters = [number, Type::Unit, Type::Boolean, text_type];
        cards.push(function(0, &parameters, text_type, &[local(name)]));
        cards.push(function(0, &parameters, number, &[val(name), num(1), local(0)]));
        cards.push(body(number, &[val(name), num(1), local(name)]));
        cards.push(body(number, &[val(name), local(name), num(1)]));
    }
    cards.extend([
        // A name is bound in the last part only, and not beyond it.
        body(number, &[SEQ, val(0), num(1), UNIT, local(0)]),
        body(number, &[ADD, val(0), num(1), local(0), local(0)]),
        body(number, &[val(0), val(0), num(1), local(0), local(0)]),
        body(number, &[val(0), val(1), num(1), local(1), local(1)]),
        // The newest binding counts, and the older one comes back.
        body(number, &[val(0), text(0, 0), val(0), num(1), local(0)]),
        body(number, &[val(0), num(1), SEQ, val(0), text(0, 0), local(0), local(0)]),
        body(text_type, &[val(0), num(1), SEQ, val(0), text(0, 0), local(0), local(0)]),
        function(0, &[number], text_type, &[val(0), text(0, 0), local(0)]),
        function(0, &[number], number, &[val(0), text(0, 0), local(0)]),
    ]);
    // A function doesn't see the names of the one before it or of its caller.
    let callee = function(1, &[], number, &[local(0)]);
    cards.push([function(0, &[number], number, &[local(0)]), callee.clone()].concat());
    cards.push([function(0, &[number], number, &[call(0, 1)]), callee].concat());
    cards
}

/// Several faults, of which the first in typing order counts.
fn in_order() -> Vec<Vec<Record>> {
    let later = function(1, &[], Type::Unit, &[local(4)]);
    vec![
        body(Type::Number, &[ADD, UNIT, local(9)]),
        body(Type::Number, &[ADD, local(8), local(9)]),
        body(Type::Number, &[ADD, ADD, UNIT, num(1), local(9)]),
        body(Type::Unit, &[ADD, UNIT, num(1)]),
        body(Type::Unit, &[IF, num(1), ADD, UNIT, UNIT, UNIT]),
        body(Type::Unit, &[IF, num(1), UNIT, local(9)]),
        body(Type::Unit, &[EXIT, of(Type::Number), local(9)]),
        body(Type::Unit, &[val(1), local(1), local(2)]),
        body(Type::Text, &[EQ, local(0), EQ, num(1), UNIT]),
        body(Type::Text, &[EQ, EQ, num(1), UNIT, local(0)]),
        [body(Type::Unit, &[num(1)]), later.clone()].concat(),
        [body(Type::Unit, &[UNIT]), later].concat(),
    ]
}
