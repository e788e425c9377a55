use super::{answer, join};
use reference::record::Record;
use reference::shorthand::*;
use reference::tree::Type::{self, Boolean, Enum, Number, Text, Unit};

const TEXT: Record = Record::new(19, 0, 0, 0);

/// The answer for a function that takes nothing; its body begins at record 2.
fn answer_body(result: Type, expression: &[Record]) -> String {
    answer(&body(result, expression))
}

/// Enum 0 with a bare case and a case of a text, at records 0 to 4.
fn one_enum() -> Vec<Record> {
    vec![enumeration(0), case(0, 0), case(1, 1), of(Text), CLOSE]
}

/// The answer for such a function behind `one_enum`; its body begins at 7.
fn answer_over_enum(result: Type, expression: &[Record]) -> String {
    answer(&join(&[&one_enum(), &body(result, expression)]))
}

#[test]
fn constants() {
    assert_eq!(answer_body(Unit, &[UNIT]), "ok 0 1");
    assert_eq!(answer_body(Number, &[num(-1)]), "ok 0 1");
    assert_eq!(answer_body(Boolean, &[boolean(false)]), "ok 0 1");
    assert_eq!(answer_body(Text, &[TEXT]), "ok 0 1");
    assert_eq!(answer_over_enum(Enum(0), &[make(0, 0, 0)]), "ok 1 1");
}

#[test]
fn a_body_has_the_declared_type() {
    assert_eq!(answer_body(Unit, &[num(1)]), "no 11 0 -");
    assert_eq!(answer_over_enum(Enum(0), &[UNIT]), "no 11 5 -");
    let second = [enumeration(1), case(0, 0), CLOSE];
    let wrong_enum = body(Enum(0), &[make(0, 1, 0)]);
    assert_eq!(answer(&join(&[&one_enum(), &second, &wrong_enum])), "no 11 8 -");
}

#[test]
fn operators() {
    for sign in [ADD, MUL, DIV, MOD] {
        assert_eq!(answer_body(Number, &[sign, num(1), num(2)]), "ok 0 1");
        assert_eq!(answer_body(Number, &[sign, UNIT, num(2)]), "no 11 2 -");
        assert_eq!(answer_body(Number, &[sign, num(1), TEXT]), "no 11 2 -");
    }
    assert_eq!(answer_body(Boolean, &[LT, num(1), num(2)]), "ok 0 1");
    assert_eq!(answer_body(Number, &[LT, num(1), num(2)]), "no 11 0 -");
    assert_eq!(answer_body(Boolean, &[LT, TEXT, TEXT]), "no 11 2 -");
    assert_eq!(answer_body(Text, &[CONCAT, TEXT, TEXT]), "ok 0 1");
    assert_eq!(answer_body(Text, &[CONCAT, TEXT, num(1)]), "no 11 2 -");
    assert_eq!(answer_body(Boolean, &[EQ, UNIT, UNIT]), "ok 0 1");
    assert_eq!(answer_body(Boolean, &[EQ, TEXT, TEXT]), "ok 0 1");
    assert_eq!(answer_body(Boolean, &[EQ, boolean(true), num(1)]), "no 11 2 -");
    assert_eq!(answer_body(Number, &[SEQ, TEXT, num(1)]), "ok 0 1");
}

#[test]
fn both_branches_are_typed_whatever_the_condition() {
    assert_eq!(answer_body(Unit, &[IF, boolean(true), UNIT, UNIT]), "ok 0 1");
    assert_eq!(answer_body(Unit, &[IF, boolean(true), UNIT, local(0)]), "no 10 5 -");
    assert_eq!(answer_body(Unit, &[IF, boolean(false), local(0), UNIT]), "no 10 4 -");
    assert_eq!(answer_body(Unit, &[IF, boolean(true), UNIT, num(1)]), "no 11 2 -");
    assert_eq!(answer_body(Unit, &[IF, boolean(false), num(1), UNIT]), "no 11 2 -");
    assert_eq!(answer_body(Unit, &[IF, num(1), UNIT, UNIT]), "no 11 2 -");
    // The parts come before the IF's own rule.
    assert_eq!(answer_body(Unit, &[IF, num(1), UNIT, local(0)]), "no 10 5 -");
}

#[test]
fn parameters_are_named_from_zero() {
    let taking = |name| answer(&function(0, &[Number, Text], Text, &[local(name)]));
    assert_eq!(taking(0), "no 11 0 -");
    assert_eq!(taking(1), "ok 0 1");
    assert_eq!(taking(2), "no 10 4 -");
}

#[test]
fn names_are_bound_in_the_last_part() {
    assert_eq!(answer_body(Number, &[val(7), num(1), local(7)]), "ok 0 1");
    assert_eq!(answer_body(Number, &[val(65_535), num(1), local(65_535)]), "ok 0 1");
    assert_eq!(answer_body(Number, &[val(7), local(7), num(1)]), "no 10 3 -");
    let beyond = [ADD, val(7), num(1), local(7), local(7)];
    assert_eq!(answer_body(Number, &beyond), "no 10 6 -");
}

#[test]
fn newest_binding_counts_until_its_end() {
    let hiding = [val(0), TEXT, val(0), num(1), local(0)];
    assert_eq!(answer_body(Number, &hiding), "ok 0 1");
    assert_eq!(answer_body(Text, &hiding), "no 11 0 -");
    let after = [val(0), TEXT, SEQ, val(0), num(1), local(0), local(0)];
    assert_eq!(answer_body(Text, &after), "ok 0 1");
    assert_eq!(answer(&function(0, &[Number], Text, &[val(0), TEXT, local(0)])), "ok 0 1");
    // The first part still sees the older one.
    let renewed = function(0, &[Number], Boolean, &[val(0), EQ, local(0), num(1), local(0)]);
    assert_eq!(answer(&renewed), "ok 0 1");
}

#[test]
fn a_function_sees_its_own_names_only() {
    let caller = function(0, &[Number], Number, &[call(0, 1)]);
    let callee = function(1, &[], Number, &[local(0)]);
    assert_eq!(answer(&join(&[&caller, &callee])), "no 10 7 -");
}

#[test]
fn exits_take_a_text_and_have_their_type() {
    assert_eq!(answer_body(Number, &[EXIT, of(Number), TEXT]), "ok 0 1");
    assert_eq!(answer_body(Number, &[EXIT, of(Unit), TEXT]), "no 11 0 -");
    assert_eq!(answer_body(Number, &[EXIT, of(Number), num(1)]), "no 11 2 -");
    assert_eq!(answer_body(Number, &[ADD, num(1), EXIT, of(Number), TEXT]), "ok 0 1");
    assert_eq!(answer_body(Unit, &[EXIT, of(Unit), EXIT, of(Text), TEXT]), "ok 0 1");
}

#[test]
fn calls_are_counted_and_then_typed() {
    let callee = function(1, &[Number, Text], Number, &[num(1)]);
    let calling = |parts: &[Record]| answer(&join(&[&body(Number, parts), &callee]));
    assert_eq!(calling(&[call(2, 1), num(1), TEXT]), "ok 0 2");
    assert_eq!(calling(&[call(2, 1), TEXT, num(1)]), "no 11 2 -");
    assert_eq!(calling(&[call(1, 1), num(1)]), "no 12 2 -");
    assert_eq!(calling(&[call(1, 1), UNIT]), "no 12 2 -");
    assert_eq!(calling(&[call(0, 1)]), "no 12 2 -");
    assert_eq!(calling(&[call(3, 1), num(1), TEXT, UNIT]), "no 12 2 -");
    // Every part is typed first, a surplus one too.
    assert_eq!(calling(&[call(3, 1), num(1), TEXT, local(0)]), "no 10 5 -");
    assert_eq!(calling(&[call(3, 1), UNIT, UNIT, ADD, UNIT, UNIT]), "no 11 5 -");
    assert_eq!(calling(&[call(1, 1), call(1, 1), UNIT]), "no 12 3 -");
}

#[test]
fn a_call_gives_the_result_declared() {
    let callee = function(1, &[], Text, &[num(1)]);
    // The caller is typed first, by what is declared, and is right.
    assert_eq!(answer(&join(&[&body(Text, &[call(0, 1)]), &callee])), "no 11 4 -");
    assert_eq!(answer(&join(&[&body(Number, &[call(0, 1)]), &callee])), "no 11 0 -");
    assert_eq!(answer_body(Unit, &[call(0, 0)]), "ok 0 1");
}

#[test]
fn makes_are_counted_and_then_typed() {
    assert_eq!(answer_over_enum(Enum(0), &[make(1, 0, 1), TEXT]), "ok 1 1");
    assert_eq!(answer_over_enum(Enum(0), &[make(1, 0, 1), UNIT]), "no 11 7 -");
    assert_eq!(answer_over_enum(Enum(0), &[make(0, 0, 1)]), "no 12 7 -");
    assert_eq!(answer_over_enum(Enum(0), &[make(1, 0, 0), UNIT]), "no 12 7 -");
    assert_eq!(answer_over_enum(Enum(0), &[make(2, 0, 1), TEXT, local(0)]), "no 10 9 -");
    assert_eq!(answer_over_enum(Text, &[make(1, 0, 1), TEXT]), "no 11 5 -");
}

/// A MATCH over a value of enum 0 with these arms.
fn matching(arms: &[Record]) -> Vec<Record> {
    join(&[&[MATCH, make(0, 0, 0)], arms, &[CLOSE]])
}

fn answer_arms(result: Type, arms: &[Record]) -> String {
    answer_over_enum(result, &matching(arms))
}

#[test]
fn matches_have_each_case_once() {
    let (none, some) = (arm(0, 0, 0), arm(1, 0, 1));
    assert_eq!(answer_arms(Unit, &[none, UNIT, some, UNIT]), "ok 1 1");
    assert_eq!(answer_arms(Unit, &[some, UNIT, none, UNIT]), "ok 1 1");
    assert_eq!(answer_arms(Unit, &[some, UNIT]), "no 13 7 -");
    assert_eq!(answer_arms(Unit, &[none, UNIT, none, UNIT]), "no 13 7 -");
    assert_eq!(answer_arms(Unit, &[none, UNIT, some, UNIT, none, UNIT]), "no 13 7 -");
    assert_eq!(answer_arms(Unit, &[none, UNIT, some, UNIT, arm(0, 0, 2), UNIT]), "no 13 7 -");
    assert_eq!(answer_arms(Unit, &[arm(1, 0, 0), UNIT, some, UNIT]), "no 13 7 -");
    assert_eq!(answer_arms(Unit, &[none, UNIT, arm(0, 0, 1), UNIT]), "no 13 7 -");
    assert_eq!(answer_arms(Unit, &[none, UNIT, arm(2, 0, 1), UNIT]), "no 13 7 -");
}

#[test]
fn a_match_is_judged_step_by_step() {
    // Its first part, then whether that is an enum, then its arms.
    assert_eq!(answer_body(Unit, &[MATCH, local(0), arm(4, 0, 9), local(1), CLOSE]), "no 10 3 -");
    assert_eq!(answer_body(Unit, &[MATCH, num(1), arm(4, 0, 9), local(1), CLOSE]), "no 11 2 -");
    assert_eq!(answer_arms(Unit, &[arm(0, 0, 0), local(1)]), "no 13 7 -");
    // Then what is in the arms, and last whether they are of one type.
    let (none, some) = (arm(0, 0, 0), arm(1, 0, 1));
    assert_eq!(answer_arms(Unit, &[none, num(1), some, local(1)]), "no 10 12 -");
    assert_eq!(answer_arms(Unit, &[none, num(1), some, ADD, UNIT, UNIT]), "no 11 12 -");
    assert_eq!(answer_arms(Unit, &[none, num(1), some, UNIT]), "no 11 7 -");
    assert_eq!(answer_arms(Unit, &[none, num(1), some, num(1)]), "no 11 5 -");
}

#[test]
fn arms_bind_the_fields_of_their_case() {
    let (none, some) = (arm(0, 0, 0), arm(1, 65_535, 1));
    assert_eq!(answer_arms(Text, &[none, TEXT, some, local(65_535)]), "ok 1 1");
    assert_eq!(answer_arms(Text, &[some, local(65_535), none, local(65_535)]), "no 10 12 -");
    let beyond = join(&[&[SEQ], &matching(&[none, UNIT, some, UNIT]), &[local(65_535)]]);
    assert_eq!(answer_over_enum(Text, &beyond), "no 10 15 -");
}

#[test]
fn names_of_an_arm_run_from_its_first() {
    let fields = [Number, Text, Boolean, Unit];
    for (at, field) in fields.into_iter().enumerate() {
        let mut records = vec![enumeration(0), case(4, 0)];
        records.extend(fields.map(of));
        records.push(CLOSE);
        let found = local(10 + at as u16);
        let expression = [MATCH, local(0), arm(4, 10, 0), found, CLOSE];
        records.extend(function(0, &[Enum(0)], field, &expression));
        assert_eq!(answer(&records), "ok 1 1", "{at}");
    }
}

#[test]
fn functions_are_typed_in_card_order() {
    let wrong = body(Unit, &[num(1)]);
    let unbound = function(1, &[], Unit, &[local(0)]);
    assert_eq!(answer(&join(&[&wrong, &unbound])), "no 11 0 -");
    assert_eq!(answer(&join(&[&body(Unit, &[UNIT]), &unbound])), "no 10 6 -");
}

#[test]
fn cards_of_enums_alone_and_endless_enums_are_good() {
    assert_eq!(answer(&one_enum()), "ok 1 0");
    let endless = [enumeration(0), case(1, 0), of(Enum(0)), CLOSE];
    assert_eq!(answer(&endless), "ok 1 0");
}
