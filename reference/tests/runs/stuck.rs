//! Cards that are not accepted, to see that a run notices where no rule
//! applies.

use super::{join, samples, A, LETTERS};
use reference::image::{read, Draft};
use reference::parse::parse;
use reference::record::Record;
use reference::run::{run, Limits};
use reference::shorthand::*;
use reference::start::Fault;
use reference::tree::Type::Unit;

/// Runs function 0, typed or not.
fn untyped(records: &[Record]) -> Result<String, Fault> {
    let image = read(&Draft::new(records.to_vec(), LETTERS).image()).expect("it has a header");
    let card = parse(&image).expect("its records are in order");
    run(&card, 0, &[], 99, Limits::PLOTTER).map(|ended| ended.to_string())
}

/// Whether a body behind `samples`, from record 15 on, gets stuck there.
fn stuck(expression: &[Record]) -> bool {
    untyped(&join(&[&samples(), &body(Unit, expression)])) == Err(Fault::Stuck(15))
}

#[test]
fn wrong_types_are_noticed() {
    let enum_value = make(0, 0, 0);
    for sign in [ADD, MUL, DIV, MOD, LT] {
        assert!(stuck(&[sign, num(1), UNIT]));
        assert!(stuck(&[sign, A, num(1)]));
    }
    assert!(stuck(&[CONCAT, A, num(1)]));
    assert!(stuck(&[CONCAT, enum_value, A]));
    assert!(stuck(&[IF, num(1), UNIT, UNIT]));
    assert!(stuck(&[EXIT, of(Unit), num(1)]));
    assert!(stuck(&[EXIT, of(Unit), enum_value]));
    assert!(stuck(&[EQ, num(1), boolean(true)]));
    assert!(stuck(&[EQ, A, enum_value]));
    assert!(stuck(&[EQ, make(1, 0, 1), A, make(1, 0, 1), num(1)]));
    assert!(stuck(&[EQ, enum_value, make(0, 1, 0)]));
}

#[test]
fn so_are_names_arms_and_counts() {
    assert!(stuck(&[local(0)]));
    assert!(stuck(&[call(1, 0), UNIT]));
    assert!(stuck(&[call(0, 1)]));
    assert!(stuck(&[text(20, 7)]));
    assert!(stuck(&[MATCH, num(1), arm(0, 0, 0), UNIT, CLOSE]));
    assert!(stuck(&[MATCH, A, arm(0, 0, 0), UNIT, CLOSE]));
    assert!(stuck(&[MATCH, make(0, 0, 0), arm(0, 0, 1), UNIT, CLOSE]));
    assert!(stuck(&[MATCH, make(0, 0, 0), arm(1, 0, 0), UNIT, CLOSE]));
    assert!(stuck(&[EQ, make(0, 0, 0), make(1, 0, 0), UNIT]));
}

#[test]
fn a_caller_lends_none_of_its_names() {
    let caller = body(Unit, &[val(7), UNIT, call(0, 1)]);
    let callee = function(1, &[], Unit, &[local(7)]);
    assert_eq!(untyped(&join(&[&caller, &callee])), Err(Fault::Stuck(8)));
}

#[test]
fn names_end_with_their_last_part() {
    assert_eq!(untyped(&body(Unit, &[val(7), local(7), UNIT])), Err(Fault::Stuck(3)));
    let after = [SEQ, val(7), UNIT, local(7), local(7)];
    assert_eq!(untyped(&body(Unit, &after)), Err(Fault::Stuck(6)));
    let matching = [SEQ, MATCH, make(1, 0, 0), UNIT, arm(1, 7, 0), local(7), CLOSE, local(7)];
    assert_eq!(untyped(&body(Unit, &matching)), Err(Fault::Stuck(9)));
}
