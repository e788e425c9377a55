use super::{join, line_over, run_over, samples, A, B};
use reference::ended::Ending;
use reference::record::Record;
use reference::shorthand::*;
use reference::store::{Cell, Value};
use reference::tree::Type::{self, Boolean, Enum, Number, Text, Unit};

fn line_with_enum_over(most: u16, result: Type, expression: &[Record]) -> String {
    run_over(most, &join(&[&samples(), &body(result, expression)]), &[]).to_string()
}

#[test]
fn texts_joins_and_values_put_one_cell_each() {
    assert_eq!(line_over(1, Text, &[A]), "0 - 1 @0 x61");
    assert_eq!(line_over(3, Text, &[CONCAT, A, B]), "0 - 3 @2 x61;x62;x6162");
    assert_eq!(line_with_enum_over(1, Enum(0), &[make(0, 0, 0)]), "0 - 1 @0 0.0()");
    assert_eq!(line_with_enum_over(2, Enum(0), &[make(1, 0, 1), A]), "0 - 2 @1 x61;0.1(@0)");
}

#[test]
fn each_of_them_may_find_it_full() {
    assert_eq!(line_over(0, Text, &[A]), "5 2 1 - -");
    assert_eq!(line_over(1, Text, &[CONCAT, A, B]), "5 4 3 - x61");
    assert_eq!(line_over(2, Text, &[CONCAT, A, B]), "5 2 3 - x61;x62");
    assert_eq!(line_with_enum_over(0, Enum(0), &[make(0, 0, 0)]), "5 15 1 - -");
    assert_eq!(line_with_enum_over(1, Enum(0), &[make(1, 0, 1), A]), "5 15 2 - x61");
}

#[test]
fn nothing_else_puts_anything() {
    let numbers = [ADD, MUL, num(2), num(3), DIV, num(9), MOD, num(7), num(4)];
    assert_eq!(line_over(0, Number, &numbers), "0 - 9 9 -");
    let comparing = [IF, LT, num(1), num(2), val(0), EQ, UNIT, UNIT];
    let naming = [SEQ, UNIT, local(0), boolean(false)];
    assert_eq!(line_over(0, Boolean, &join(&[&comparing, &naming])), "0 - 12 true -");
    let matching = [MATCH, make(0, 0, 0), arm(0, 0, 0), UNIT, arm(1, 0, 1), UNIT];
    let arms = [arm(4, 0, 2), UNIT, arm(2, 0, 3), UNIT, CLOSE];
    let whole = join(&[&matching, &arms]);
    assert_eq!(line_with_enum_over(1, Unit, &whole), "0 - 3 unit 0.0()");
}

#[test]
fn an_empty_text_takes_a_cell_too() {
    assert_eq!(line_over(0, Text, &[text(26, 0)]), "5 2 1 - -");
    assert_eq!(line_over(1, Text, &[text(26, 0)]), "0 - 1 @0 x");
}

/// A card that puts 65,534 texts and then goes on with this at record 32. Function 1 + j
/// puts 2 to the power of j, by calling the one before it twice.
fn fill(last: &[Record]) -> Vec<Record> {
    let calls: Vec<Record> = (2..=16).rev().flat_map(|number| [SEQ, call(0, number)]).collect();
    let mut records = body(Text, &join(&[&calls, last]));
    records.extend(function(1, &[], Text, &[A]));
    for number in 2..=16 {
        let before = call(0, number - 1);
        records.extend(function(number, &[], Text, &[SEQ, before, before]));
    }
    records
}

#[test]
fn the_largest_store_holds_65_535() {
    let ended = run_over(u16::MAX, &fill(&[B]), &[]);
    assert_eq!((ended.ending, ended.value), (Ending::Value, Some(Value::Place(65_534))));
    assert_eq!(ended.cells.len(), 65_535);
    assert_eq!(ended.cells[65_534], Cell::Text(b"b".to_vec()));
    let ended = run_over(u16::MAX, &fill(&[SEQ, A, B]), &[]);
    assert_eq!((ended.ending, ended.record), (Ending::FullStore, Some(34)));
    assert_eq!(ended.cells.len(), 65_535);
    let ended = run_over(65_534, &fill(&[B]), &[]);
    assert_eq!((ended.ending, ended.record), (Ending::FullStore, Some(32)));
}
