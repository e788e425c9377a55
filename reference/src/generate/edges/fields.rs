//! Test 7: each field of each kind at its last value and past it.

use super::plain;
use crate::image::Draft;
use crate::record::{kind, Record};
use crate::shorthand::*;
use crate::tree::Type;

pub fn drafts() -> Vec<Draft> {
    let mut drafts = Vec::new();
    for known in kind::ALL {
        drafts.extend(edges_of(known));
    }
    drafts.extend(unknown_kinds());
    drafts.extend(types());
    drafts.extend(arm_names());
    drafts.extend(lowest());
    drafts
}

/// Values for a field that a kind doesn't use.
const UNUSED_A: &[u8] = &[1, 255];
const UNUSED_B: &[u16] = &[1, 256];
const UNUSED_C: &[i32] = &[1, 256, 65_536, 1 << 24, -1];
const COUNT_A: &[u8] = &[1, 4, 5, 255];
const CASE_C: &[i32] = &[1, 15, 16, 256, 65_536, 1 << 24, -1];

/// The values to try in A, B and C of a kind.
fn values(known: u8) -> (&'static [u8], &'static [u16], &'static [i32]) {
    match known {
        kind::ENUM => (UNUSED_A, &[31, 32, 256], UNUSED_C),
        kind::CASE => (COUNT_A, &[15, 16, 256], UNUSED_C),
        kind::DEF | kind::CALL => (COUNT_A, &[63, 64, 256], UNUSED_C),
        kind::TYPE => (&[1, 2, 3, 4, 5, 255], UNUSED_B, UNUSED_C),
        kind::NUM => (UNUSED_A, UNUSED_B, &[i32::MIN, -1, 1, 65_536, i32::MAX]),
        kind::BOOL => (&[1, 2, 255], UNUSED_B, UNUSED_C),
        kind::STR => (UNUSED_A, &[6, 7, 256, 65_535], &[1, 24, 25, 256, 65_536, -1, i32::MIN]),
        kind::LOCAL | kind::VAL => (UNUSED_A, &[1, 256, 65_535], UNUSED_C),
        kind::MAKE => (COUNT_A, &[31, 32, 256], CASE_C),
        kind::ARM => (COUNT_A, &[1, 65_535], CASE_C),
        _ => (UNUSED_A, UNUSED_B, UNUSED_C),
    }
}

/// A small good card with a record of this kind.
fn home(known: u8) -> Draft {
    let expression: Vec<Record> = match known {
        kind::ADD..=kind::MOD => vec![SEQ, bare(known), num(1), num(2), UNIT],
        kind::CONCAT => vec![SEQ, CONCAT, text(0, 1), text(1, 0), UNIT],
        kind::EQ | kind::LT => vec![SEQ, bare(known), num(1), num(2), UNIT],
        kind::IF => vec![IF, boolean(true), UNIT, UNIT],
        kind::VAL | kind::LOCAL => vec![val(0), UNIT, local(0)],
        kind::CALL => vec![call(0, 0)],
        kind::MAKE | kind::MATCH | kind::ARM => {
            vec![MATCH, make(0, 0, 0), arm(0, 0, 0), UNIT, CLOSE]
        }
        kind::EXIT => vec![EXIT, of(Type::Unit), text(0, 3)],
        kind::NUM | kind::BOOL | kind::STR => vec![SEQ, bare(known), UNIT],
        kind::SEQ => vec![SEQ, UNIT, UNIT],
        _ => vec![UNIT],
    };
    let mut records = vec![enumeration(0), case(0, 0), CLOSE];
    records.extend(body(Type::Unit, &expression));
    Draft::new(records, b"thirty bytes of text, or so...")
}

fn edges_of(known: u8) -> Vec<Draft> {
    let home = home(known);
    let at = home.records.iter().position(|record| record.kind == known);
    let at = at.expect("a home has its record");
    let (a_values, b_values, c_values) = values(known);
    let own = home.records[at];
    let mut changed: Vec<Record> = Vec::new();
    changed.extend(a_values.iter().map(|a| Record { a: *a, ..own }));
    changed.extend(b_values.iter().map(|b| Record { b: *b, ..own }));
    changed.extend(c_values.iter().map(|c| Record { c: *c, ..own }));
    changed
        .into_iter()
        .map(|record| {
            let mut draft = home.clone();
            draft.records[at] = record;
            draft
        })
        .collect()
}

/// All low unknown kinds and a choice of the higher ones, those among them
/// that share their low bits with known kinds.
fn unknown_kinds() -> Vec<Draft> {
    let low = (4..=7).chain(9..=15).chain(36..=40);
    let high = [48, 63, 64, 67, 80, 97, 127, 128, 131, 136, 144, 161, 163, 192, 251, 254, 255];
    let mut drafts = Vec::new();
    for (turn, unknown) in low.chain(high).enumerate() {
        let mut records = body(Type::Unit, &[UNIT]);
        let at = turn % records.len();
        records[at] = bare(unknown);
        drafts.push(Draft::new(records, b""));
    }
    drafts
}

/// TYPE may use B only for an enum.
fn types() -> Vec<Draft> {
    let fields = [(0, 1), (1, 1), (2, 31), (3, 1), (4, 0), (4, 1), (4, 31), (4, 32), (4, 256)];
    let cards = fields.map(|(a, b)| {
        let mut records = body(Type::Unit, &[EXIT, of(Type::Unit), text(0, 0)]);
        records[3] = Record::new(kind::TYPE, a, b, 0);
        records
    });
    plain(cards)
}

/// An arm's names must end by the largest name.
fn arm_names() -> Vec<Draft> {
    let names: [(u8, u16); 9] = [
        (0, 65_535),
        (1, 65_535),
        (2, 65_534),
        (2, 65_535),
        (3, 65_533),
        (3, 65_534),
        (4, 65_532),
        (4, 65_533),
        (4, 65_535),
    ];
    let cards = names.map(|(count, first)| {
        let mut records = vec![enumeration(0), case(count, 0)];
        records.extend(vec![of(Type::Number); usize::from(count)]);
        records.push(CLOSE);
        let last = first.saturating_add(u16::from(count).saturating_sub(1));
        let found = if count == 0 { num(1) } else { local(last) };
        records.extend(function(
            0,
            &[Type::Enum(0)],
            Type::Number,
            &[MATCH, local(0), arm(count, first, 0), found, CLOSE],
        ));
        records
    });
    plain(cards)
}

/// Two such faults, and one behind every other kind of fault.
fn lowest() -> Vec<Draft> {
    let bad = bare(9);
    let unset = Record::new(kind::UNIT, 1, 0, 0);
    plain([
        body(Type::Unit, &[unset, bad]),
        body(Type::Unit, &[SEQ, bad, unset]),
        vec![CLOSE, bad],
        vec![def(0, 1), of(Type::Unit), UNIT, unset],
        body(Type::Unit, &[local(3), bad]),
        [body(Type::Unit, &[num(1)]), vec![bad]].concat(),
        [body(Type::Unit, &[num(1)]), vec![enumeration(32)]].concat(),
    ])
}
