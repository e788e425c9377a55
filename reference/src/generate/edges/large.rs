//! Cards at their limits: records, text, depth, and counts of things.

use crate::image::{Draft, MOST_RECORDS, MOST_TEXT};
use crate::record::{kind, Record};
use crate::shorthand::*;
use crate::tree::Type;

pub fn drafts() -> Vec<Draft> {
    let mut drafts = full();
    drafts.extend(many_things());
    drafts.extend(deep());
    drafts
}

/// A good card of the most records: SEQs, each nested in the one before.
fn longest() -> Vec<Record> {
    let expression = [[SEQ, UNIT].repeat(254), vec![UNIT]].concat();
    body(Type::Unit, &expression)
}

/// The most records and text, and one more of each.
fn full() -> Vec<Draft> {
    let whole = longest();
    let short = body(Type::Text, &[text(2024, 24)]);
    let mut over = whole.clone();
    over.push(UNIT);
    let mut last_is_bad = whole.clone();
    last_is_bad[MOST_RECORDS - 1] = bare(255);
    let mut last_is_misplaced = whole.clone();
    last_is_misplaced[MOST_RECORDS - 1] = UNIT;
    let mut open = whole.clone();
    open.pop();
    vec![
        Draft::new(whole, &[7; MOST_TEXT]),
        Draft::new(over, b""),
        Draft::new(last_is_bad, b""),
        Draft::new(last_is_misplaced, b""),
        Draft::new(open, b""),
        Draft::new(short.clone(), &[7; MOST_TEXT]),
        Draft::new(short.clone(), &[7; MOST_TEXT - 1]),
        Draft::new(short, &[7; MOST_TEXT + 1]),
    ]
}

/// As many enums, cases and functions as numbers allow, and one more, which
/// can only repeat a number.
fn many_things() -> Vec<Draft> {
    let enums = |count: u16| -> Vec<Record> {
        (0..count).flat_map(|at| [enumeration(at.min(31)), case(0, 0), CLOSE]).collect()
    };
    let functions = |count: u16| -> Vec<Record> {
        (0..count).flat_map(|at| function(at.min(63), &[], Type::Unit, &[call(0, 63)])).collect()
    };
    let cases = |count: u16| -> Vec<Record> {
        let mut records = vec![enumeration(0)];
        records.extend((0..count).map(|at| case(0, at.min(15))));
        records.push(CLOSE);
        records
    };
    let making = body(Type::Enum(31), &[make(0, 31, 0)]);
    let arms: Vec<Record> = (0..16).rev().flat_map(|at| [arm(0, 0, at), UNIT]).collect();
    let matching = [vec![MATCH, make(0, 0, 15)], arms, vec![CLOSE]].concat();
    let cards = [
        [enums(32), making.clone()].concat(),
        [enums(31), making].concat(),
        enums(33),
        functions(64),
        functions(63),
        functions(65),
        [cases(16), body(Type::Unit, &matching)].concat(),
        [cases(15), body(Type::Enum(0), &[make(0, 0, 14)])].concat(),
        cases(17),
    ];
    cards.map(|records| Draft::new(records, b"")).to_vec()
}

/// Expressions nested as deep as 512 records allow.
fn deep() -> Vec<Draft> {
    let left = [vec![ADD; 254], vec![num(1); 255]].concat();
    let mut bad_leaf = left.clone();
    bad_leaf[254] = local(0);
    let exits = [[EXIT, of(Type::Text)].repeat(254), vec![text(0, 0)]].concat();
    let calls = [vec![call(1, 0); 500], vec![UNIT]].concat();
    let values: Vec<Record> = (0..240).flat_map(|name| [val(name), UNIT]).collect();
    let values = [values, vec![local(0)]].concat();
    let cards = [
        body(Type::Number, &left),
        body(Type::Number, &bad_leaf),
        body(Type::Number, &left[..508]),
        body(Type::Text, &exits),
        function(0, &[Type::Unit], Type::Unit, &calls),
        body(Type::Unit, &values),
        in_arms(126, 126),
        in_arms(126, 125),
        in_arms(126, 0),
        in_subjects(100),
    ];
    cards.map(|records| Draft::new(records, b"")).to_vec()
}

/// An enum 0 with nothing but a bare case.
const ONE_CASE: [Record; 3] = [bare(kind::ENUM), bare(kind::CASE), CLOSE];

/// MATCHes nested in arms, of which only some are closed.
fn in_arms(depth: usize, closed: usize) -> Vec<Record> {
    let mut records = ONE_CASE.to_vec();
    records.extend([def(1, 0), of(Type::Enum(0)), of(Type::Unit)]);
    records.extend([MATCH, local(0), arm(0, 0, 0)].repeat(depth));
    records.push(UNIT);
    records.extend(vec![CLOSE; closed]);
    if closed == depth {
        records.push(CLOSE);
    }
    records
}

/// MATCHes nested in the first parts of others.
fn in_subjects(depth: usize) -> Vec<Record> {
    let mut expression = vec![MATCH; depth];
    expression.push(make(0, 0, 0));
    expression.extend([arm(0, 0, 0), make(0, 0, 0), CLOSE].repeat(depth));
    [ONE_CASE.to_vec(), body(Type::Enum(0), &expression)].concat()
}
