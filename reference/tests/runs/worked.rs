use super::{card, line, line_with_enum, number, run_on, run_over, text_of, A};
use reference::ended::{granted, Shown};
use reference::run::{run, Limits};
use reference::shorthand::*;
use reference::tree::Type::{self, Boolean, Enum, Number, Text, Unit};

const SPIT: &str = "x53706974";

#[test]
fn card_k_wraps_its_text() {
    let ended = run_on(&card_k().records, &[number(30_000), text_of("Spit")]);
    assert_eq!(ended.to_string(), format!("0 - 6 @1 {SPIT};0.1(@0)"));
}

#[test]
fn card_k_in_turns() {
    let ended = run_on(&card_k().records, &[number(30_000), text_of("Spit")]);
    assert_eq!(granted(&ended, 4), Shown::Going { units: 4 });
    assert_eq!(granted(&ended, 4 + 2), Shown::Ended(&ended));
}

#[test]
fn card_k_on_a_large_number() {
    let ended = run_on(&card_k().records, &[number(50_000), text_of("Spit")]);
    assert_eq!(ended.to_string(), format!("0 - 5 @1 {SPIT};0.0()"));
}

#[test]
fn card_k_over_one_cell() {
    let ended = run_over(1, &card_k().records, &[number(30_000), text_of("Spit")]);
    assert_eq!(ended.to_string(), format!("5 13 6 - {SPIT}"));
}

#[test]
fn division() {
    assert_eq!(line(Number, &[DIV, num(-7), num(2)]), "0 - 3 -3 -");
    assert_eq!(line(Number, &[MOD, num(-7), num(2)]), "0 - 3 -1 -");
    assert_eq!(line(Number, &[DIV, num(i32::MIN), num(-1)]), "3 2 3 - -");
    assert_eq!(line(Number, &[MOD, num(i32::MIN), num(-1)]), "0 - 3 0 -");
}

#[test]
fn joins_of_24_bytes() {
    let letters = "x6162636465666768696a6b6c6d6e6f707172737475767778";
    let with_none = line(Text, &[CONCAT, text(0, 24), text(0, 0)]);
    assert_eq!(with_none, format!("0 - 3 @2 {letters};x;{letters}"));
    let with_one = line(Text, &[CONCAT, text(0, 24), text(0, 1)]);
    assert_eq!(with_one, format!("4 2 3 - {letters};x61"));
}

#[test]
fn two_equal_values() {
    let found = line_with_enum(Boolean, &[EQ, make(1, 0, 1), A, make(1, 0, 1), A]);
    assert_eq!(found, "0 - 7 true x61;0.1(@0);x61;0.1(@2)");
}

#[test]
fn a_body_that_only_calls_its_own_function() {
    for result in [Unit, Number, Boolean, Text] {
        for most in [0, 1, u16::MAX] {
            let ended = run_over(most, &body(result, &[call(0, 0)]), &[]);
            assert_eq!(ended.to_string(), "6 2 257 - -");
        }
    }
}

#[test]
fn so_it_is_behind_other_functions_and_enums() {
    let mut records = vec![enumeration(0), case(1, 0), of(Enum(0)), CLOSE];
    records.extend(function(0, &[Type::Text], Text, &[local(0)]));
    records.extend(function(1, &[], Enum(0), &[call(0, 1)]));
    let ended = run(&card(&records), 1, &[], 3, Limits::PLOTTER).expect("it can be started");
    assert_eq!(ended.to_string(), "6 11 257 - -");
}
