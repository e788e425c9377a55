use super::{join, line, line_with_enum, number, run_on, text_of, A, B};
use reference::shorthand::*;
use reference::start::Argument;
use reference::tree::Type::{Boolean, Enum, Number, Text, Unit};

#[test]
fn parameters_have_their_names_in_order() {
    let arguments = [number(7), text_of("q"), Argument::Boolean(true), Argument::Unit];
    let types = [Number, Text, Boolean, Unit];
    let values = ["7", "@0", "true", "unit"];
    for (name, (result, value)) in types.into_iter().zip(values).enumerate() {
        let records = function(0, &types, result, &[local(name as u16)]);
        assert_eq!(run_on(&records, &arguments).to_string(), format!("0 - 1 {value} x71"));
    }
}

#[test]
fn a_callee_sees_its_own_names_only() {
    // Both use the names 0 and 1, and each sees its own.
    let caller = [val(1), num(10), ADD, call(1, 1), num(1), ADD, local(0), local(1)];
    let callee = [val(1), num(200), ADD, local(0), local(1)];
    let records =
        join(&[&function(0, &[Number], Number, &caller), &function(1, &[Number], Number, &callee)]);
    assert_eq!(run_on(&records, &[number(3_000)]).to_string(), "0 - 13 3211 -");
}

#[test]
fn each_call_has_names_of_its_own() {
    // n + f(n - 1): what is below does not disturb the count above it.
    let sum = [IF, LT, local(0), num(1), num(0)];
    let again = [ADD, call(1, 0), ADD, local(0), num(-1), local(0)];
    let records = function(0, &[Number], Number, &join(&[&sum, &again]));
    assert_eq!(run_on(&records, &[number(4)]).to_string(), "0 - 45 10 -");
}

#[test]
fn the_newest_binding_wins() {
    assert_eq!(line(Number, &[val(0), num(1), val(0), num(2), local(0)]), "0 - 5 2 -");
    assert_eq!(line(Number, &[val(0), A, val(0), num(2), local(0)]), "0 - 5 2 x61");
    let records = function(0, &[Number], Number, &[val(0), num(2), local(0)]);
    assert_eq!(run_on(&records, &[number(1)]).to_string(), "0 - 3 2 -");
}

#[test]
fn the_first_part_sees_the_older_one() {
    let renewed = [val(0), num(1), val(0), ADD, local(0), num(10), local(0)];
    assert_eq!(line(Number, &renewed), "0 - 7 11 -");
}

#[test]
fn the_older_one_counts_again_afterwards() {
    let after = [val(0), num(1), ADD, val(0), num(20), local(0), local(0)];
    assert_eq!(line(Number, &after), "0 - 7 21 -");
    let both = [val(3), num(1), val(4), num(2), ADD, local(3), local(4)];
    assert_eq!(line(Number, &both), "0 - 7 3 -");
}

#[test]
fn the_largest_name_is_bound() {
    assert_eq!(line(Number, &[val(65_535), num(1), local(65_535)]), "0 - 3 1 -");
}

#[test]
fn an_arm_binds_the_fields_in_order() {
    for (name, value) in [(65_532, "9"), (65_533, "8"), (65_534, "7"), (65_535, "6")] {
        let matching = [MATCH, make(4, 0, 2), num(9), num(8), num(7), num(6)];
        let arms = [arm(4, 65_532, 2), local(name), arm(0, 0, 0), num(0)];
        let others = [arm(1, 0, 1), num(0), arm(2, 0, 3), num(0), CLOSE];
        let found = line_with_enum(Number, &join(&[&matching, &arms, &others]));
        assert_eq!(found, format!("0 - 7 {value} 0.2(9,8,7,6)"));
    }
}

#[test]
fn an_arm_hides_names_until_its_end() {
    // Names 0 and 1 outside, then an arm that binds 1 and 2.
    let outside = [val(0), num(1), val(1), num(10), ADD];
    let matching = [MATCH, make(2, 0, 3), num(500), make(0, 0, 0)];
    let hiding = [arm(2, 1, 3), ADD, local(0), local(1)];
    let others = [arm(0, 1, 0), num(0), arm(1, 0, 1), num(0), arm(4, 0, 2), num(0), CLOSE];
    let whole = join(&[&outside, &matching, &hiding, &others, &[local(1)]]);
    let found = line_with_enum(Number, &whole);
    assert_eq!(found, "0 - 13 511 0.0();0.3(500,@0)");
}

#[test]
fn a_value_moves_by_its_place() {
    // Naming a text and handing it on puts nothing more.
    let callee = function(1, &[Text], Text, &[local(0)]);
    let caller = body(Text, &[val(5), B, val(6), local(5), call(1, 1), local(6)]);
    let ended = run_on(&join(&[&caller, &callee]), &[]);
    assert_eq!(ended.to_string(), "0 - 7 @0 x62");
    let shared = [val(0), make(0, 0, 0), make(2, 0, 3), num(1), local(0)];
    assert_eq!(line_with_enum(Enum(0), &shared), "0 - 5 @1 0.0();0.3(1,@0)");
}
