use super::{card, join, number, run_on, samples, A};
use reference::ended::{granted, Ended, Ending, Shown};
use reference::record::Record;
use reference::run::{run, Limits};
use reference::shorthand::*;
use reference::tree::Type::{Boolean, Number, Unit};

fn run_within(limits: Limits, records: &[Record]) -> Ended {
    run(&card(records), 0, &[], u16::MAX, limits).expect("the run can be started")
}

fn line_of(units: u32, open: u32, records: &[Record]) -> String {
    run_within(Limits { units, open }, records).to_string()
}

/// So many judgements open at once: SEQs behind one another, and a UNIT.
fn nested(depth: usize) -> Vec<Record> {
    let sequences: Vec<Record> = [SEQ, UNIT].repeat(depth - 1);
    body(Unit, &join(&[&sequences, &[UNIT]]))
}

#[test]
fn the_last_part_stays_open() {
    // 254 is what a card of 512 records has room for.
    assert_eq!(run_on(&nested(254), &[]).to_string(), "0 - 507 unit -");
    assert_eq!(line_of(1_000, 254, &nested(254)), "0 - 507 unit -");
    assert_eq!(line_of(1_000, 253, &nested(254)), format!("6 {} 506 - -", 2 + 2 * 252 + 1));
}

#[test]
fn every_kind_stays_open_for_its_last_part() {
    const LAST: [Record; 3] = [SEQ, UNIT, UNIT];
    let others = [arm(1, 0, 1), UNIT, arm(4, 0, 2), UNIT, arm(2, 0, 3), UNIT, CLOSE];
    // With each, the first record that is three deep.
    let bodies: [(Vec<Record>, usize); 6] = [
        (join(&[&[SEQ, UNIT], &LAST]), 18),
        (join(&[&[val(0), UNIT], &LAST]), 18),
        (join(&[&[IF, boolean(true)], &LAST, &[UNIT]]), 18),
        (join(&[&[IF, boolean(false), UNIT], &LAST]), 19),
        (join(&[&[MATCH, make(0, 0, 0), arm(0, 0, 0)], &LAST, &others]), 19),
        (vec![call(0, 1)], 20),
    ];
    for (expression, third) in bodies {
        let callee = function(1, &[], Unit, &LAST);
        let records = join(&[&samples(), &body(Unit, &expression), &callee]);
        let within = |open| run_within(Limits { units: 99, open }, &records);
        assert_eq!(within(3).ending, Ending::Value);
        assert_eq!((within(2).ending, within(2).record), (Ending::TooDeep, Some(third)));
    }
}

#[test]
fn a_comparison_is_open_below_its_eq() {
    let records = body(Boolean, &[EQ, UNIT, UNIT]);
    assert_eq!(line_of(99, 2, &records), "0 - 4 true -");
    assert_eq!(line_of(99, 1, &records), "6 3 2 - -");
    // As deep as the parts were, so only fields can be deeper.
    let made = [EQ, make(1, 0, 1), A, make(1, 0, 1), A];
    let records = join(&[&samples(), &body(Boolean, &made)]);
    assert_eq!(line_of(99, 3, &records), "0 - 7 true x61;0.1(@0);x61;0.1(@2)");
    let value = [val(0), make(1, 0, 1), A, EQ, local(0), local(0)];
    let records = join(&[&samples(), &body(Boolean, &value)]);
    assert_eq!(line_of(99, 4, &records), "0 - 8 true x61;0.1(@0)");
    assert_eq!(line_of(99, 3, &records), "6 18 8 - x61;0.1(@0)");
}

#[test]
fn an_overrun_names_what_was_to_be_opened() {
    let records = body(Boolean, &[EQ, num(1), num(2)]);
    assert_eq!(line_of(0, 256, &records), "7 2 0 - -");
    assert_eq!(line_of(1, 256, &records), "7 3 1 - -");
    assert_eq!(line_of(2, 256, &records), "7 4 2 - -");
    // A comparison has its EQ's record.
    assert_eq!(line_of(3, 256, &records), "7 2 3 - -");
    assert_eq!(line_of(4, 256, &records), "0 - 4 false -");
}

#[test]
fn being_too_deep_costs_a_unit_and_an_overrun_none() {
    let endless = body(Unit, &[call(0, 0)]);
    assert_eq!(line_of(1_000, 256, &endless), "6 2 257 - -");
    assert_eq!(line_of(257, 256, &endless), "6 2 257 - -");
    // Where both are due, it is the overrun.
    assert_eq!(line_of(256, 256, &endless), "7 2 256 - -");
    assert_eq!(line_of(1_000, 0, &endless), "6 2 1 - -");
    assert_eq!(line_of(0, 0, &endless), "7 2 0 - -");
}

#[test]
fn too_deep_names_the_record_to_be_opened() {
    // A SEQ and a CALL are open on each level, and the UNIT is as deep as the
    // CALL. With 256 the next SEQ is too deep, with 255 the last UNIT.
    let down = body(Unit, &[SEQ, UNIT, call(0, 0)]);
    assert_eq!(line_of(9_999, 256, &down), format!("6 2 {} - -", 128 * 3 + 1));
    assert_eq!(line_of(9_999, 255, &down), format!("6 3 {} - -", 127 * 3 + 2));
    // One level less than the parts need.
    let sum = body(Number, &[ADD, ADD, num(1), num(2), num(3)]);
    assert_eq!(line_of(9_999, 3, &sum), "0 - 5 6 -");
    assert_eq!(line_of(9_999, 2, &sum), "6 4 3 - -");
}

/// Units that function j of `exactly` takes; a call of it takes one more.
fn doubled(j: usize) -> usize {
    (4 << j) - 3
}

/// A card whose function 0 takes exactly so many units. Function 1 is a UNIT,
/// and each function further on calls the one before it twice.
fn exactly(units: usize) -> Vec<Record> {
    const DOUBLINGS: usize = 18;
    let mut left = units - 1;
    let mut calls = Vec::new();
    for j in (0..DOUBLINGS).rev() {
        // A SEQ and a CALL come with it.
        while left >= doubled(j) + 2 {
            left -= doubled(j) + 2;
            calls.extend([SEQ, call(0, 1 + j as u16)]);
        }
    }
    let last: &[Record] = match left {
        0 => &[UNIT],
        1 => &[call(0, 1)],
        _ => &[SEQ, UNIT, UNIT],
    };
    let mut records = body(Unit, &join(&[&calls, last]));
    records.extend(function(1, &[], Unit, &[UNIT]));
    for j in 1..DOUBLINGS as u16 {
        records.extend(function(1 + j, &[], Unit, &[SEQ, call(0, j), call(0, j)]));
    }
    records
}

#[test]
fn small_counts_of_units_are_exact() {
    for units in 1..200 {
        let found = run_on(&exactly(units), &[]).to_string();
        assert_eq!(found, format!("0 - {units} unit -"));
    }
}

#[test]
fn a_million_units_are_enough() {
    let ended = run_on(&exactly(1_000_000), &[]);
    assert_eq!(ended.to_string(), "0 - 1000000 unit -");
    assert_eq!(granted(&ended, 999_999), Shown::Going { units: 999_999 });
    assert_eq!(granted(&ended, 1_000_000), Shown::Ended(&ended));
}

#[test]
fn one_more_is_an_overrun() {
    let records = exactly(1_000_001);
    let ended = run_on(&records, &[]);
    // The last judgement is the UNIT before the CLOSE of function 0.
    let close = records.iter().position(|record| *record == CLOSE).expect("there is one");
    assert_eq!(ended.to_string(), format!("7 {} 1000000 - -", close - 1));
    assert_eq!(records[close - 1], UNIT);
    // That it is one shows as soon as the last unit is spent.
    assert_eq!(granted(&ended, 999_999), Shown::Going { units: 999_999 });
    assert_eq!(granted(&ended, 1_000_000), Shown::Ended(&ended));
    assert_eq!(run_on(&exactly(1_500_000), &[]).units, 1_000_000);
}

#[test]
fn a_run_goes_on_until_its_last_unit_is_granted() {
    let ended = run_on(&function(0, &[Number], Number, &[ADD, local(0), num(1)]), &[number(1)]);
    for units in 0..3 {
        assert_eq!(granted(&ended, units), Shown::Going { units });
    }
    for units in [3, 4, 1_000_000, u32::MAX] {
        assert_eq!(granted(&ended, units), Shown::Ended(&ended));
    }
}
