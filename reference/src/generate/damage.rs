//! Harms drafts record by record. What comes out may still be a good card.

use crate::image::Draft;
use crate::random::Random;
use crate::record::{kind, Record};
use crate::shorthand::*;
use crate::tree::Type;

type Harm = fn(&mut Random, &mut Draft);

/// The ways to harm a draft, the more useful ones several times.
const HARMS: [Harm; 28] = [
    cut_end,
    cut_end,
    drop_one,
    drop_one,
    double_one,
    swap_neighbours,
    swap_any,
    insert_close,
    insert_close,
    drop_close,
    insert_any,
    change_kind,
    edge_field,
    edge_field,
    renumber,
    renumber,
    swap_numbers,
    rename,
    rename,
    text_edge,
    text_edge,
    move_expression,
    move_expression,
    drop_group,
    open_at_end,
    change_arm,
    change_local,
    change_type,
];

/// Harms a draft in one way, if it has anything to harm.
pub fn harm(random: &mut Random, draft: &mut Draft) {
    if !draft.records.is_empty() {
        random.pick(&HARMS)(random, draft);
    }
}

fn place(random: &mut Random, draft: &Draft) -> usize {
    random.below(draft.records.len())
}

/// A record of one of these kinds, if there is one.
fn find<'a>(random: &mut Random, draft: &'a mut Draft, kinds: &[u8]) -> Option<&'a mut Record> {
    let fitting: Vec<usize> =
        (0..draft.records.len()).filter(|at| kinds.contains(&draft.records[*at].kind)).collect();
    if fitting.is_empty() {
        return None;
    }
    let at = random.pick(&fitting);
    draft.records.get_mut(at)
}

fn cut_end(random: &mut Random, draft: &mut Draft) {
    let kept = place(random, draft);
    draft.records.truncate(kept.max(1));
}

fn drop_one(random: &mut Random, draft: &mut Draft) {
    let at = place(random, draft);
    draft.records.remove(at);
}

fn double_one(random: &mut Random, draft: &mut Draft) {
    let at = place(random, draft);
    draft.records.insert(at, draft.records[at]);
}

fn swap_neighbours(random: &mut Random, draft: &mut Draft) {
    let at = place(random, draft);
    let next = (at + 1) % draft.records.len();
    draft.records.swap(at, next);
}

fn swap_any(random: &mut Random, draft: &mut Draft) {
    let (one, other) = (place(random, draft), place(random, draft));
    draft.records.swap(one, other);
}

fn insert_close(random: &mut Random, draft: &mut Draft) {
    let at = random.between(0, draft.records.len());
    draft.records.insert(at, CLOSE);
}

fn drop_close(random: &mut Random, draft: &mut Draft) {
    let closes: Vec<usize> =
        (0..draft.records.len()).filter(|at| draft.records[*at] == CLOSE).collect();
    if !closes.is_empty() {
        draft.records.remove(random.pick(&closes));
    }
}

fn insert_any(random: &mut Random, draft: &mut Draft) {
    let at = random.between(0, draft.records.len());
    let record = any_record(random);
    draft.records.insert(at, record);
}

fn change_kind(random: &mut Random, draft: &mut Draft) {
    let at = place(random, draft);
    draft.records[at].kind = match random.below(3) {
        0 => random.byte(),
        _ => random.pick(&kind::ALL),
    };
}

/// Puts a value at or past the end of some field's range.
fn edge_field(random: &mut Random, draft: &mut Draft) {
    let at = place(random, draft);
    let record = &mut draft.records[at];
    match random.below(3) {
        0 => record.a = random.pick(&[1, 2, 3, 4, 5, 128, 255]),
        1 => record.b = random.pick(&[1, 15, 16, 31, 32, 63, 64, 256, 65_532, 65_535]),
        _ => record.c = random.pick(&[1, 15, 16, 24, 25, 256, 1 << 16, 1 << 24, -1, i32::MIN]),
    }
}

fn renumber(random: &mut Random, draft: &mut Draft) {
    if let Some(record) = find(random, draft, &[kind::ENUM, kind::DEF, kind::CASE]) {
        record.b = match random.below(3) {
            0 => record.b.saturating_sub(1),
            1 => record.b + 1,
            _ => random.below(16) as u16,
        };
    }
}

fn swap_numbers(random: &mut Random, draft: &mut Draft) {
    let wanted = random.pick(&[kind::ENUM, kind::DEF, kind::CASE]);
    let fitting: Vec<usize> =
        (0..draft.records.len()).filter(|at| draft.records[*at].kind == wanted).collect();
    if fitting.len() > 1 {
        let (one, other) = (random.pick(&fitting), random.pick(&fitting));
        let number = draft.records[one].b;
        draft.records[one].b = draft.records[other].b;
        draft.records[other].b = number;
    }
}

/// Names another enum, function or case, which may or may not be there.
fn rename(random: &mut Random, draft: &mut Draft) {
    let enums = draft.records.iter().filter(|record| record.kind == kind::ENUM).count();
    let functions = draft.records.iter().filter(|record| record.kind == kind::DEF).count();
    if let Some(record) = find(random, draft, &[kind::TYPE, kind::CALL, kind::MAKE]) {
        match record.kind {
            kind::CALL => record.b = random.between(0, functions) as u16,
            kind::MAKE if random.chance(500) => record.c = random.below(5) as i32,
            kind::MAKE => record.b = random.between(0, enums) as u16,
            _ => *record = of(Type::Enum(random.between(0, enums) as u16)),
        }
    }
}

/// Puts a text so that it ends near the last text byte.
fn text_edge(random: &mut Random, draft: &mut Draft) {
    let text_length = draft.text.len();
    if let Some(record) = find(random, draft, &[kind::STR]) {
        let length = random.pick(&[0, 0, 1, 24, text_length.min(24)]);
        let end = text_length + random.below(3);
        record.b = end.saturating_sub(length) as u16;
        record.c = length as i32;
    }
}

/// Puts a copy of one expression in the place of another.
fn move_expression(random: &mut Random, draft: &mut Draft) {
    let spans: Vec<(usize, usize)> = (0..draft.records.len())
        .filter_map(|at| expression_end(&draft.records, at).map(|end| (at, end)))
        .collect();
    if !spans.is_empty() {
        let (from, from_end) = random.pick(&spans);
        let (to, to_end) = random.pick(&spans);
        let copy = draft.records[from..from_end].to_vec();
        draft.records.splice(to..to_end, copy);
    }
}

/// Where the expression that begins at a record ends, if one does begin there.
fn expression_end(records: &[Record], at: usize) -> Option<usize> {
    let record = records.get(at)?;
    let parts = match record.kind {
        kind::UNIT..=kind::LOCAL => 0,
        kind::ADD..=kind::SEQ | kind::VAL => 2,
        kind::IF => 3,
        kind::CALL | kind::MAKE => record.a,
        kind::EXIT => return expression_end(records, at + 2),
        kind::MATCH => return match_end(records, at),
        _ => return None,
    };
    (0..parts).try_fold(at + 1, |end, _| expression_end(records, end))
}

fn match_end(records: &[Record], at: usize) -> Option<usize> {
    let mut end = expression_end(records, at + 1)?;
    while records.get(end)?.kind == kind::ARM {
        end = expression_end(records, end + 1)?;
    }
    (records[end] == CLOSE).then_some(end + 1)
}

/// Takes out a whole ENUM or DEF, so that others lack it.
fn drop_group(random: &mut Random, draft: &mut Draft) {
    let opens: Vec<usize> = (0..draft.records.len())
        .filter(|at| matches!(draft.records[*at].kind, kind::ENUM | kind::DEF))
        .collect();
    if opens.len() > 1 {
        let chosen = random.below(opens.len());
        let end = opens.get(chosen + 1).copied().unwrap_or(draft.records.len());
        draft.records.drain(opens[chosen]..end);
    }
}

/// Adds a beginning after the end of the card.
fn open_at_end(random: &mut Random, draft: &mut Draft) {
    let functions = draft.records.iter().filter(|record| record.kind == kind::DEF).count() as u16;
    let beginnings: [&[Record]; 8] = [
        &[UNIT],
        &[CLOSE],
        &[enumeration(0)],
        &[enumeration(0), case(1, 0)],
        &[def(0, functions)],
        &[def(0, functions), of(Type::Unit), UNIT],
        &[def(0, functions), of(Type::Unit), MATCH, UNIT],
        &[def(0, functions), of(Type::Unit), MATCH, UNIT, arm(0, 0, 0), MATCH, UNIT],
    ];
    draft.records.extend(random.pick(&beginnings));
}

fn change_arm(random: &mut Random, draft: &mut Draft) {
    if let Some(record) = find(random, draft, &[kind::ARM]) {
        match random.below(3) {
            0 => record.a = random.below(5) as u8,
            1 => record.b = random.pick(&[0, 1, 2, 65_532, 65_533, 65_534, 65_535]),
            _ => record.c = random.below(4) as i32,
        }
    }
}

fn change_local(random: &mut Random, draft: &mut Draft) {
    if let Some(record) = find(random, draft, &[kind::LOCAL, kind::VAL]) {
        record.b = random.pick(&[0, 1, 2, 3, 4, 5, 9, 256, 65_535]);
    }
}

fn change_type(random: &mut Random, draft: &mut Draft) {
    if let Some(record) = find(random, draft, &[kind::TYPE]) {
        let plain = [Type::Unit, Type::Number, Type::Boolean, Type::Text, Type::Enum(0)];
        *record = of(random.pick(&plain));
    }
}

/// A record of any kind, with fields in range.
fn any_record(random: &mut Random) -> Record {
    let kind = random.pick(&kind::ALL);
    let small = random.below(3);
    match kind {
        kind::ENUM => enumeration(small as u16),
        kind::CASE => case(small as u8, 0),
        kind::DEF => def(small as u8, 0),
        kind::TYPE => of(random.pick(&[Type::Unit, Type::Number, Type::Text, Type::Enum(0)])),
        kind::NUM => num(small as i32),
        kind::LOCAL => local(small as u16),
        kind::VAL => val(small as u16),
        kind::CALL => call(small as u8, 0),
        kind::MAKE => make(small as u8, 0, 0),
        kind::ARM => arm(small as u8, 0, small as i32),
        _ => bare(kind),
    }
}

/// Any records in any order, behind a beginning that fits.
pub fn jumble(random: &mut Random) -> Draft {
    let beginnings: [&[Record]; 5] = [
        &[],
        &[enumeration(0)],
        &[enumeration(0), case(0, 0), CLOSE],
        &[def(0, 0), of(Type::Unit)],
        &[def(0, 0), of(Type::Unit), MATCH],
    ];
    let mut records = random.pick(&beginnings).to_vec();
    for _ in 0..random.between(1, 12) {
        records.push(any_record(random));
    }
    Draft::new(records, b"")
}
