use super::{join, line, line_over, number, run_on, A, B};
use reference::record::Record;
use reference::shorthand::*;
use reference::tree::Type::{Boolean, Number, Text, Unit};

#[test]
fn zero_is_a_value_of_any_kind() {
    assert_eq!(line(Unit, &[UNIT]), "0 - 1 unit -");
    assert_eq!(line(Number, &[num(-5)]), "0 - 1 -5 -");
    assert_eq!(line(Boolean, &[boolean(false)]), "0 - 1 false -");
    assert_eq!(line(Boolean, &[boolean(true)]), "0 - 1 true -");
    assert_eq!(line(Text, &[A]), "0 - 1 @0 x61");
}

#[test]
fn one_is_an_exit_with_its_text() {
    assert_eq!(line(Number, &[EXIT, of(Number), A]), "1 2 2 @0 x61");
    let within = [ADD, num(1), SEQ, B, EXIT, of(Number), A];
    assert_eq!(line(Number, &within), "1 6 6 @1 x62;x61");
}

#[test]
fn two_is_a_zero_divisor() {
    assert_eq!(line(Number, &[DIV, num(1), num(0)]), "2 2 3 - -");
    assert_eq!(line(Number, &[ADD, num(1), MOD, num(1), num(0)]), "2 4 5 - -");
}

#[test]
fn three_is_a_number_out_of_range() {
    assert_eq!(line(Number, &[ADD, num(i32::MAX), num(1)]), "3 2 3 - -");
    assert_eq!(line(Number, &[MUL, num(65_536), num(32_768)]), "3 2 3 - -");
}

#[test]
fn four_is_a_text_too_long() {
    assert_eq!(line(Text, &[CONCAT, A, CONCAT, B, text(1, 24)]).split(' ').next(), Some("4"));
    assert_eq!(line(Text, &[CONCAT, text(0, 2), text(2, 23)])[..9], *"4 2 3 - x");
}

#[test]
fn five_is_a_full_store() {
    assert_eq!(line_over(0, Text, &[A]), "5 2 1 - -");
    assert_eq!(line_over(1, Unit, &[SEQ, A, SEQ, B, UNIT]), "5 5 4 - x61");
}

#[test]
fn six_is_too_deep() {
    // A SEQ and a CALL are open on each of 128 levels.
    assert_eq!(line(Unit, &[SEQ, call(0, 0), UNIT]), "6 2 257 - -");
    // A CALL is open on each level, and there the ADD and its parts are
    // evaluated: on level 255 the LOCAL is the one too many.
    let down = [call(1, 0), ADD, local(0), num(1)];
    let ended = run_on(&function(0, &[Number], Unit, &down), &[number(0)]);
    assert_eq!(ended.to_string(), format!("6 5 {} - -", 254 * 4 + 3));
}

#[test]
fn seven_is_an_overrun() {
    let twice = function(0, &[Number], Unit, &halved());
    let ended = run_on(&twice, &[number(40)]);
    assert_eq!((ended.ending.number(), ended.units, ended.value), (7, 1_000_000, None));
    assert!(ended.record.is_some());
}

/// Goes on twice with one less, down to nothing.
fn halved() -> Vec<Record> {
    let again = [call(1, 0), ADD, local(0), num(-1)];
    join(&[&[IF, LT, local(0), num(1), UNIT, SEQ], &again, &again])
}
