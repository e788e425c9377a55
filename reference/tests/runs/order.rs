use super::{join, line, line_over, line_with_enum, run_on, A, B};
use reference::record::Record;
use reference::shorthand::*;
use reference::tree::Type::{self, Boolean, Enum, Number, Text, Unit};

/// Ends the run where it is evaluated, with the text "a" or "b".
fn exit(result: Type, told: Record) -> [Record; 3] {
    [EXIT, of(result), told]
}

/// Where an operator's two parts would both end the run.
fn first_exit(sign: Record, part: Type, result: Type) -> String {
    line(result, &join(&[&[sign], &exit(part, A), &exit(part, B)]))
}

#[test]
fn operators_evaluate_their_left_part_first() {
    for sign in [ADD, MUL, DIV, MOD] {
        assert_eq!(first_exit(sign, Number, Number), "1 3 3 @0 x61");
    }
    assert_eq!(first_exit(LT, Number, Boolean), "1 3 3 @0 x61");
    assert_eq!(first_exit(CONCAT, Text, Text), "1 3 3 @0 x61");
    assert_eq!(first_exit(EQ, Unit, Boolean), "1 3 3 @0 x61");
    assert_eq!(first_exit(SEQ, Unit, Unit), "1 3 3 @0 x61");
    assert_eq!(first_exit(val(0), Unit, Unit), "1 3 3 @0 x61");
}

#[test]
fn both_parts_come_before_the_rule() {
    // The left part has its value, and the right part exits.
    let divided = join(&[&[DIV, DIV, num(1), num(1)], &exit(Number, A)]);
    assert_eq!(line(Number, &divided), "1 6 6 @0 x61");
    // The left part is out of range, and what is to the right never comes up.
    let summed = join(&[&[DIV, ADD, num(i32::MAX), num(1)], &exit(Number, A)]);
    assert_eq!(line(Number, &summed), "3 3 4 - -");
    let by_zero = join(&[&[SEQ, DIV, num(1), num(0)], &exit(Number, A)]);
    assert_eq!(line(Number, &by_zero), "2 3 4 - -");
}

#[test]
fn arguments_are_evaluated_from_left_to_right() {
    let caller = body(Text, &[call(4, 1), A, B, A, text(2, 1)]);
    let callee = function(1, &[Text; 4], Text, &[local(2)]);
    let ended = run_on(&join(&[&caller, &callee]), &[]);
    assert_eq!(ended.to_string(), "0 - 6 @2 x61;x62;x61;x63");
    let numbers = [make(4, 0, 2), num(9), num(8), num(7), num(6)];
    assert_eq!(line_with_enum(Enum(0), &numbers), "0 - 5 @0 0.2(9,8,7,6)");
}

#[test]
fn an_argument_may_end_the_run_before_the_call() {
    let caller = body(Unit, &join(&[&[call(2, 1), A], &exit(Unit, B)]));
    let callee = function(1, &[Text, Unit], Unit, &[call(2, 1), local(0), local(1)]);
    assert_eq!(run_on(&join(&[&caller, &callee]), &[]).to_string(), "1 4 4 @1 x61;x62");
    let made = join(&[&[make(2, 0, 3)], &exit(Number, A), &exit(Enum(0), B)]);
    assert_eq!(line_with_enum(Enum(0), &made), "1 16 3 @0 x61");
}

#[test]
fn an_if_takes_one_branch_only() {
    let either = |truth| {
        let parts: [&[Record]; 3] = [&[IF, boolean(truth)], &exit(Unit, A), &exit(Unit, B)];
        line(Unit, &join(&parts))
    };
    assert_eq!(either(true), "1 4 4 @0 x61");
    assert_eq!(either(false), "1 7 4 @0 x62");
    let asked = join(&[&[IF], &exit(Boolean, A), &[UNIT, UNIT]]);
    assert_eq!(line(Unit, &asked), "1 3 3 @0 x61");
}

#[test]
fn a_sequence_gives_its_second_part() {
    assert_eq!(line(Number, &[SEQ, A, num(4)]), "0 - 3 4 x61");
}

#[test]
fn a_match_takes_the_arm_of_the_case() {
    let arms = [arm(2, 0, 3), num(3), arm(0, 0, 0), num(0), arm(4, 0, 2), num(2), arm(1, 0, 1)];
    let matching = |subject: &[Record]| {
        line_with_enum(Number, &join(&[&[MATCH], subject, &arms, &[num(1), CLOSE]]))
    };
    assert_eq!(matching(&[make(0, 0, 0)]), "0 - 3 0 0.0()");
    assert_eq!(matching(&[make(1, 0, 1), A]), "0 - 4 1 x61;0.1(@0)");
    let four = [make(4, 0, 2), num(1), num(2), num(3), num(4)];
    assert_eq!(matching(&four), "0 - 7 2 0.2(1,2,3,4)");
    let nested = [make(2, 0, 3), num(1), make(0, 0, 0)];
    assert_eq!(matching(&nested), "0 - 5 3 0.0();0.3(1,@0)");
    assert_eq!(matching(&exit(Enum(0), B)), "1 16 3 @0 x62");
}

#[test]
fn a_long_text_is_found_before_a_full_store() {
    let letters = "x6162636465666768696a6b6c6d6e6f707172737475767778";
    let join_one = [CONCAT, text(0, 24), A];
    assert_eq!(line_over(2, Text, &join_one), format!("4 2 3 - {letters};x61"));
    let join_none = [CONCAT, text(0, 24), text(0, 0)];
    assert_eq!(line_over(2, Text, &join_none), format!("5 2 3 - {letters};x"));
}

#[test]
fn an_exit_evaluates_its_text_and_puts_nothing() {
    assert_eq!(line_over(3, Unit, &[EXIT, of(Unit), CONCAT, A, B]), "1 2 4 @2 x61;x62;x6162");
    assert_eq!(line_over(0, Unit, &[EXIT, of(Unit), A]), "5 4 2 - -");
    let nested = join(&[&[EXIT, of(Unit)], &exit(Text, B)]);
    assert_eq!(line(Unit, &nested), "1 4 3 @0 x62");
}
