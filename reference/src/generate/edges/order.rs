//! Test 8: what may follow what, in every state that a card can be in.

use super::{plain, two_enums};
use crate::image::Draft;
use crate::record::{kind, Record};
use crate::shorthand::*;
use crate::tree::Type;

pub fn drafts() -> Vec<Draft> {
    let mut drafts = plain(kinds_in_each_state());
    drafts.extend(one_change_everywhere());
    drafts.extend(plain(several()));
    drafts
}

/// Beginnings of cards, one for each thing that may have to come next.
fn states() -> Vec<Vec<Record>> {
    let open_def = vec![def(0, 0), of(Type::Unit)];
    let after = |more: &[Record]| [open_def.clone(), more.to_vec()].concat();
    vec![
        vec![],
        vec![enumeration(0)],
        vec![enumeration(0), case(0, 0)],
        vec![enumeration(0), case(2, 0), of(Type::Unit)],
        vec![enumeration(0), case(0, 0), CLOSE],
        vec![def(1, 0)],
        vec![def(0, 0)],
        open_def.clone(),
        after(&[UNIT]),
        after(&[UNIT, CLOSE]),
        after(&[SEQ, UNIT]),
        after(&[IF, boolean(true), UNIT]),
        after(&[call(2, 0), UNIT]),
        after(&[make(1, 0, 0)]),
        after(&[EXIT]),
        after(&[EXIT, of(Type::Unit)]),
        after(&[MATCH]),
        after(&[MATCH, UNIT]),
        after(&[MATCH, UNIT, arm(0, 0, 0)]),
        after(&[MATCH, UNIT, arm(0, 0, 0), UNIT]),
        after(&[MATCH, UNIT, arm(0, 0, 0), MATCH, UNIT, arm(0, 0, 0), UNIT]),
        after(&[MATCH, UNIT, arm(0, 0, 0), MATCH, UNIT, arm(0, 0, 0), UNIT, CLOSE]),
        after(&[MATCH, MATCH, UNIT]),
    ]
}

/// Kinds that differ in what they may follow or be followed by.
const UNLIKE: [u8; 12] = [
    kind::CLOSE,
    kind::ENUM,
    kind::CASE,
    kind::DEF,
    kind::TYPE,
    kind::UNIT,
    kind::SEQ,
    kind::IF,
    kind::CALL,
    kind::MATCH,
    kind::ARM,
    kind::EXIT,
];

/// Each state followed by each of the unlike kinds and, taking turns, some of
/// the others, and then by nothing.
fn kinds_in_each_state() -> Vec<Vec<Record>> {
    let like = kind::ALL.into_iter().filter(|other| !UNLIKE.contains(other));
    let mut like = like.cycle();
    let mut cards = Vec::new();
    for state in states() {
        for next in UNLIKE.into_iter().chain(like.by_ref().take(3)) {
            cards.push([state.clone(), vec![bare(next)]].concat());
        }
    }
    cards
}

/// A good card with every kind of record and nested groups.
fn rich() -> Draft {
    let told = [IF, EQ, local(7), text(0, 2), MUL, local(5), local(0)];
    let left = [EXIT, of(Type::Number), CONCAT, local(7), text(2, 1)];
    let counted = [DIV, num(1), MOD, num(5), num(2)];
    let again = [SEQ, UNIT, call(2, 0), num(1), make(2, 1, 1), num(2), make(1, 0, 1), text(0, 3)];
    let expression = [
        &[val(5), ADD, local(0), num(-3), MATCH, local(1)][..],
        &[arm(2, 0, 1), MATCH, local(1)],
        &[&[arm(1, 7, 1)], &told[..], &left].concat(),
        &[&[arm(0, 0, 0)], &counted[..]].concat(),
        &[CLOSE, arm(0, 0, 0)],
        &again,
        &[CLOSE],
    ];
    let mut records = two_enums();
    let parameters = [Type::Number, Type::Enum(1)];
    records.extend(function(0, &parameters, Type::Number, &expression.concat()));
    records.extend(function(1, &[], Type::Boolean, &[LT, num(1), num(2)]));
    Draft::new(records, b"buoy")
}

/// The rich card cut at every length, and with each record lost, doubled or
/// behind a CLOSE too many.
fn one_change_everywhere() -> Vec<Draft> {
    let whole = rich();
    let mut drafts = vec![whole.clone()];
    for at in 0..whole.records.len() {
        let mut changed = vec![whole.clone(); 4];
        changed[0].records.truncate(at.max(1));
        changed[1].records.remove(at);
        changed[2].records.insert(at, whole.records[at]);
        changed[3].records.insert(at, CLOSE);
        drafts.extend(changed);
    }
    let mut closed_twice = whole;
    closed_twice.records.push(CLOSE);
    drafts.push(closed_twice);
    drafts
}

/// Two faults, and a fault of this kind after others that are judged later.
fn several() -> Vec<Vec<Record>> {
    let good = body(Type::Unit, &[UNIT]);
    vec![
        vec![CLOSE, CLOSE],
        [good.clone(), vec![UNIT, CLOSE]].concat(),
        [good.clone(), vec![def(0, 5)]].concat(),
        [body(Type::Unit, &[call(0, 9)]), vec![UNIT]].concat(),
        [body(Type::Unit, &[local(9)]), vec![enumeration(0)]].concat(),
        [body(Type::Unit, &[num(9)]), vec![enumeration(0), CLOSE]].concat(),
        vec![def(0, 0), of(Type::Unit), call(4, 0), UNIT, UNIT, UNIT, CLOSE],
        vec![def(0, 0), of(Type::Unit), call(2, 0), UNIT, UNIT, UNIT, CLOSE],
        vec![def(2, 0), of(Type::Unit), of(Type::Unit), UNIT, CLOSE],
        vec![enumeration(0), case(1, 0), case(0, 1), CLOSE],
        vec![enumeration(0), case(0, 0), of(Type::Unit), CLOSE],
    ]
}
