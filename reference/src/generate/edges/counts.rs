//! Tests 12 and 13, and 11 beside them: CALL, MAKE and MATCH.

use super::{plain, sample, two_enums, with_enums, TYPES};
use crate::image::Draft;
use crate::record::Record;
use crate::shorthand::*;
use crate::tree::Type;

pub fn drafts() -> Vec<Draft> {
    let mut cards = applied();
    cards.extend(faults_in_parts());
    cards.extend(subjects());
    cards.extend(arm_sets());
    cards.extend(arm_types());
    cards.extend(arm_names());
    plain(cards)
}

/// Parts of numbers, as many as wanted.
fn numbers(count: u8) -> Vec<Record> {
    vec![num(1); usize::from(count)]
}

/// Each count of parts given for each count declared.
fn applied() -> Vec<Vec<Record>> {
    let mut cards = Vec::new();
    for declared in 0..=4 {
        let fields = vec![Type::Number; usize::from(declared)];
        let callee = function(1, &fields, Type::Unit, &[UNIT]);
        let mut one_case = vec![enumeration(0), case(declared, 0)];
        one_case.extend(fields.iter().map(|field| of(*field)));
        one_case.push(CLOSE);
        for given in 0..=4 {
            let calling = [vec![call(given, 1)], numbers(given)].concat();
            cards.push([body(Type::Unit, &calling), callee.clone()].concat());
            let making = [vec![make(given, 0, 0)], numbers(given)].concat();
            cards.push([one_case.clone(), body(Type::Enum(0), &making)].concat());
        }
    }
    for given in TYPES {
        cards.push(with_enums(Type::Enum(0), &[make(1, 0, 1), sample(given)]));
        cards.push(with_enums(Type::Enum(1), &[make(2, 1, 1), num(1), sample(given)]));
        let calling = with_enums(Type::Unit, &[call(1, 1), sample(given)]);
        cards.push([calling, function(1, &[Type::Enum(1)], Type::Unit, &[UNIT])].concat());
    }
    cards
}

/// Parts are typed before their count is judged, and that before their types.
fn faults_in_parts() -> Vec<Vec<Record>> {
    let callee = function(1, &[Type::Number, Type::Text], Type::Number, &[num(1)]);
    let bodies: [&[Record]; 9] = [
        &[call(2, 1), num(1), text(0, 0)],
        &[call(2, 1), text(0, 0), num(1)],
        &[call(1, 1), UNIT],
        &[call(1, 1), local(0)],
        &[call(3, 1), num(1), text(0, 0), local(0)],
        &[call(3, 1), UNIT, UNIT, ADD, UNIT, UNIT],
        &[call(3, 1), call(1, 1), UNIT, local(0), UNIT],
        &[call(2, 1), UNIT, local(0)],
        &[call(2, 1), call(2, 1), UNIT, UNIT, local(0)],
    ];
    let mut cards: Vec<Vec<Record>> =
        bodies.iter().map(|given| [body(Type::Number, given), callee.clone()].concat()).collect();
    cards.push([body(Type::Text, &[call(2, 1), num(1), text(0, 0)]), callee].concat());
    cards.push(with_enums(Type::Enum(0), &[make(2, 0, 1), text(0, 0), local(0)]));
    cards.push(with_enums(Type::Enum(0), &[make(2, 0, 1), UNIT, UNIT]));
    cards.push(with_enums(Type::Unit, &[make(1, 0, 0), make(0, 0, 1)]));
    cards.push(with_enums(Type::Enum(1), &[make(0, 0, 0)]));
    cards
}

/// A MATCH over each type, with arms for the first enum.
fn subjects() -> Vec<Vec<Record>> {
    let mut cards = Vec::new();
    for subject in TYPES {
        let arms = [arm(0, 0, 0), UNIT, arm(1, 0, 1), UNIT, CLOSE];
        cards.push(with_enums(Type::Unit, &[&[MATCH, sample(subject)], &arms[..]].concat()));
    }
    // Over no enum it makes no difference what the arms are.
    cards.push(body(Type::Unit, &[MATCH, num(1), arm(4, 0, 15), local(9), CLOSE]));
    cards.push(body(Type::Unit, &[MATCH, local(9), arm(4, 0, 15), local(8), CLOSE]));
    cards.push(with_enums(Type::Unit, &[MATCH, make(0, 0, 0), arm(4, 0, 15), local(9), CLOSE]));
    cards
}

/// Arms by names and case over the first enum, whose cases 0 and 1 have no
/// field and one.
fn arm_sets() -> Vec<Vec<Record>> {
    let sets: [&[(u8, i32)]; 18] = [
        &[(0, 0), (1, 1)],
        &[(1, 1), (0, 0)],
        &[(0, 0)],
        &[(1, 1)],
        &[(0, 0), (0, 0)],
        &[(1, 1), (1, 1)],
        &[(0, 0), (1, 1), (0, 0)],
        &[(0, 0), (0, 0), (1, 1)],
        &[(0, 0), (1, 1), (1, 1)],
        &[(0, 0), (1, 2)],
        &[(0, 0), (1, 1), (0, 2)],
        &[(0, 2), (0, 0), (1, 1)],
        &[(0, 0), (1, 1), (0, 15)],
        &[(1, 0), (1, 1)],
        &[(0, 0), (0, 1)],
        &[(0, 0), (2, 1)],
        &[(1, 0), (0, 1)],
        &[(4, 0), (4, 1)],
    ];
    let mut cards = Vec::new();
    for set in sets {
        for found in [UNIT, local(7)] {
            let mut expression = vec![MATCH, make(0, 0, 0)];
            for (names, chosen) in set {
                expression.extend([arm(*names, 7, *chosen), found]);
            }
            expression.push(CLOSE);
            cards.push(with_enums(Type::Unit, &expression));
        }
    }
    cards
}

/// Arms of each pair of types.
fn arm_types() -> Vec<Vec<Record>> {
    let mut cards = Vec::new();
    for (one_at, one) in TYPES.into_iter().enumerate() {
        for (other_at, other) in TYPES.into_iter().enumerate() {
            if one_at.abs_diff(other_at) < 2 {
                let (one, other) = (sample(one), sample(other));
                let arms = [arm(1, 0, 1), one, arm(0, 0, 0), other, CLOSE];
                cards.push(with_enums(
                    TYPES[one_at],
                    &[&[MATCH, make(0, 0, 0)], &arms[..]].concat(),
                ));
            }
        }
    }
    // A fault inside a later arm comes before arms that differ.
    let subject = [MATCH, make(0, 0, 0)];
    let endings: [&[Record]; 4] = [
        &[arm(1, 0, 1), num(1), arm(0, 0, 0), local(0), CLOSE],
        &[arm(1, 0, 1), local(3), arm(0, 0, 0), ADD, UNIT, UNIT, CLOSE],
        &[arm(0, 0, 0), UNIT, arm(1, 0, 1), local(0), CLOSE],
        &[arm(0, 0, 0), UNIT, arm(1, 0, 1), MATCH, local(0), arm(0, 0, 0), UNIT, CLOSE, CLOSE],
    ];
    cards.extend(endings.map(|ending| with_enums(Type::Unit, &[&subject, ending].concat())));
    cards
}

/// What the names of an arm stand for, within it and after it.
fn arm_names() -> Vec<Vec<Record>> {
    let enums = two_enums();
    let mut cards = Vec::new();
    for first in [0, 1, 4, 255, 256, 65_534] {
        for name in [0, 1, 2, 4, 5, 6, 255, 256, 257, 65_534, 65_535] {
            if name == 0 || u16::abs_diff(name, first) < 3 {
                let expression =
                    [MATCH, local(0), arm(2, first, 1), local(name), arm(0, 0, 0), num(1), CLOSE];
                let taking = function(0, &[Type::Enum(1)], Type::Number, &expression);
                cards.push([enums.clone(), taking].concat());
            }
        }
    }
    let after =
        [ADD, MATCH, local(0), arm(2, 3, 1), local(3), arm(0, 3, 0), num(1), CLOSE, local(3)];
    cards.push([enums.clone(), function(0, &[Type::Enum(1)], Type::Number, &after)].concat());
    let other_arm = [MATCH, local(0), arm(2, 3, 1), local(3), arm(0, 3, 0), local(3), CLOSE];
    cards.push([enums, function(0, &[Type::Enum(1)], Type::Number, &other_arm)].concat());
    cards
}
