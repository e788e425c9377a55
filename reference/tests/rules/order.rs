use super::{answer, join};
use reference::record::{kind, Record};
use reference::shorthand::*;
use reference::tree::Type;

const T: Record = bare(kind::TYPE);

#[test]
fn only_enums_and_functions_at_the_top() {
    for known in kind::ALL {
        let expected = match known {
            kind::ENUM | kind::DEF => "no 8 1 0",
            _ => "no 8 0 -",
        };
        assert_eq!(answer(&[bare(known)]), expected, "{known}");
    }
}

#[test]
fn nothing_after_a_whole_card_but_more_of_it() {
    let whole = body(Type::Unit, &[UNIT]);
    assert_eq!(answer(&join(&[&whole, &[CLOSE]])), "no 8 4 -");
    assert_eq!(answer(&join(&[&whole, &[UNIT]])), "no 8 4 -");
    assert_eq!(answer(&join(&[&whole, &[enumeration(0)]])), "no 8 5 4");
    assert_eq!(answer(&join(&[&whole, &[enumeration(0), case(0, 0), CLOSE]])), "ok 1 1");
}

#[test]
fn enums_need_a_case() {
    assert_eq!(answer(&[enumeration(0), CLOSE]), "no 8 1 0");
    assert_eq!(answer(&[enumeration(0), case(0, 0), CLOSE]), "ok 1 0");
    assert_eq!(answer(&[enumeration(0), case(0, 0)]), "no 8 2 0");
    assert_eq!(answer(&[enumeration(0), T]), "no 8 1 0");
}

#[test]
fn cases_have_as_many_types_as_fields() {
    assert_eq!(answer(&[enumeration(0), case(0, 0), T, CLOSE]), "no 8 2 0");
    assert_eq!(answer(&[enumeration(0), case(2, 0), T, CLOSE]), "no 8 3 0");
    assert_eq!(answer(&[enumeration(0), case(2, 0), T, T, CLOSE]), "ok 1 0");
    assert_eq!(answer(&[enumeration(0), case(1, 0), case(0, 1), CLOSE]), "no 8 2 0");
    assert_eq!(answer(&[enumeration(0), case(4, 0), T, T, T]), "no 8 5 0");
}

#[test]
fn functions_have_types_a_body_and_a_close() {
    assert_eq!(answer(&[def(0, 0), UNIT, CLOSE]), "no 8 1 0");
    assert_eq!(answer(&[def(1, 0), T, UNIT, CLOSE]), "no 8 2 0");
    assert_eq!(answer(&[def(0, 0), T, CLOSE]), "no 8 2 0");
    assert_eq!(answer(&[def(0, 0), T, T, UNIT, CLOSE]), "no 8 2 0");
    assert_eq!(answer(&[def(0, 0), T, UNIT]), "no 8 3 0");
    assert_eq!(answer(&[def(0, 0), T, UNIT, UNIT, CLOSE]), "no 8 3 0");
    assert_eq!(answer(&[def(0, 0), T, UNIT, def(0, 1)]), "no 8 3 0");
    assert_eq!(answer(&[def(0, 0), T, arm(0, 0, 0), UNIT]), "no 8 2 0");
}

#[test]
fn expressions_have_their_parts() {
    for sign in [ADD, MUL, DIV, MOD, CONCAT, EQ, LT, SEQ, val(0)] {
        assert_eq!(answer(&body(Type::Unit, &[sign])), "no 8 3 0");
        assert_eq!(answer(&body(Type::Unit, &[sign, UNIT])), "no 8 4 0");
        assert_eq!(answer(&body(Type::Unit, &[sign, UNIT, UNIT, UNIT])), "no 8 5 0");
    }
    assert_eq!(answer(&body(Type::Unit, &[IF, UNIT, UNIT])), "no 8 5 0");
    assert_eq!(answer(&body(Type::Unit, &[call(3, 0), UNIT, UNIT])), "no 8 5 0");
    assert_eq!(answer(&body(Type::Unit, &[call(0, 0), UNIT])), "no 8 3 0");
    assert_eq!(answer(&body(Type::Unit, &[make(1, 0, 0)])), "no 8 3 0");
    assert_eq!(answer(&body(Type::Unit, &[EXIT, UNIT])), "no 8 3 0");
    assert_eq!(answer(&body(Type::Unit, &[EXIT, T])), "no 8 4 0");
    assert_eq!(answer(&body(Type::Unit, &[T])), "no 8 2 0");
}

#[test]
fn matches_open_a_group() {
    // From the MATCH on, and so also in its first part.
    assert_eq!(answer(&[def(0, 0), T, MATCH]), "no 8 3 2");
    assert_eq!(answer(&[def(0, 0), T, MATCH, CLOSE]), "no 8 3 2");
    assert_eq!(answer(&[def(0, 0), T, MATCH, ADD, UNIT, CLOSE]), "no 8 5 2");
    // An arm must come, and its expression.
    assert_eq!(answer(&[def(0, 0), T, MATCH, UNIT, CLOSE]), "no 8 4 2");
    assert_eq!(answer(&[def(0, 0), T, MATCH, UNIT, UNIT]), "no 8 4 2");
    assert_eq!(answer(&[def(0, 0), T, MATCH, UNIT, arm(0, 0, 0), CLOSE]), "no 8 5 2");
    assert_eq!(answer(&[def(0, 0), T, MATCH, UNIT, arm(0, 0, 0), UNIT, UNIT]), "no 8 6 2");
}

#[test]
fn each_group_has_a_close_of_its_own() {
    let open = [def(0, 0), T, MATCH, UNIT, arm(0, 0, 0), UNIT];
    assert_eq!(answer(&open), "no 8 6 2");
    // This CLOSE ends the MATCH and leaves the function open.
    assert_eq!(answer(&join(&[&open, &[CLOSE]])), "no 8 7 0");
    assert_eq!(answer(&join(&[&open, &[CLOSE, UNIT]])), "no 8 7 0");
    // The order is right now, and what is wrong is the type of the MATCH.
    assert_eq!(answer(&join(&[&open, &[CLOSE, CLOSE]])), "no 11 2 -");
    assert_eq!(answer(&join(&[&open, &[CLOSE, CLOSE, CLOSE]])), "no 8 8 -");
}

#[test]
fn nested_matches_name_the_innermost() {
    let outer = [def(0, 0), T, MATCH, UNIT, arm(0, 0, 0)];
    let inner = [MATCH, UNIT, arm(0, 0, 0), UNIT];
    let both = join(&[&outer, &inner]);
    assert_eq!(answer(&both), "no 8 9 5");
    assert_eq!(answer(&join(&[&both, &[CLOSE]])), "no 8 10 2");
    assert_eq!(answer(&join(&[&both, &[CLOSE, CLOSE]])), "no 8 11 0");
    // In the first part of another.
    assert_eq!(answer(&[def(0, 0), T, MATCH, MATCH, UNIT, CLOSE]), "no 8 5 3");
    let done = [def(0, 0), T, MATCH, MATCH, UNIT, arm(0, 0, 0), UNIT, CLOSE];
    assert_eq!(answer(&join(&[&done, &[CLOSE]])), "no 8 8 2");
}

#[test]
fn first_record_counts_and_before_names_and_types() {
    let wrong_number = function(7, &[], Type::Unit, &[call(0, 9)]);
    assert_eq!(answer(&join(&[&wrong_number, &[UNIT, CLOSE]])), "no 8 4 -");
    let wrong_type = body(Type::Unit, &[num(1)]);
    assert_eq!(answer(&join(&[&wrong_type, &[def(0, 0)]])), "no 8 5 4");
}
