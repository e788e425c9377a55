use super::{answer, answer_with, join};
use reference::record::Record;
use reference::shorthand::*;
use reference::tree::Type;

fn bare_enum(number: u16) -> Vec<Record> {
    vec![enumeration(number), case(0, 0), CLOSE]
}

fn unit_function(number: u16) -> Vec<Record> {
    function(number, &[], Type::Unit, &[UNIT])
}

#[test]
fn enums_and_functions_count_apart() {
    let mixed = join(&[&unit_function(0), &bare_enum(0), &unit_function(1), &bare_enum(1)]);
    assert_eq!(answer(&mixed), "ok 2 2");
    assert_eq!(answer(&bare_enum(1)), "no 9 0 -");
    assert_eq!(answer(&unit_function(1)), "no 9 0 -");
    assert_eq!(answer(&join(&[&bare_enum(0), &bare_enum(0)])), "no 9 3 -");
    assert_eq!(answer(&join(&[&bare_enum(0), &unit_function(1)])), "no 9 3 -");
    assert_eq!(answer(&join(&[&unit_function(0), &unit_function(2)])), "no 9 4 -");
    assert_eq!(answer(&join(&[&bare_enum(1), &bare_enum(0)])), "no 9 0 -");
}

#[test]
fn cases_count_anew_in_each_enum() {
    let first = [enumeration(0), case(0, 0), case(0, 1), CLOSE];
    assert_eq!(answer(&join(&[&first, &bare_enum(1)])), "ok 2 0");
    let running_on = [enumeration(1), case(0, 2), CLOSE];
    assert_eq!(answer(&join(&[&first, &running_on])), "no 9 5 -");
    assert_eq!(answer(&[enumeration(0), case(0, 0), case(0, 0), CLOSE]), "no 9 2 -");
    assert_eq!(answer(&[enumeration(0), case(0, 1), CLOSE]), "no 9 1 -");
}

#[test]
fn too_many_things_run_out_of_numbers() {
    let enums: Vec<Record> = (0..33).flat_map(|at: u16| bare_enum(at.min(31))).collect();
    assert_eq!(answer(&enums[..96]), "ok 32 0");
    assert_eq!(answer(&enums), "no 9 96 -");
    let functions: Vec<Record> = (0..65).flat_map(|at: u16| unit_function(at.min(63))).collect();
    assert_eq!(answer(&functions[..256]), "ok 0 64");
    assert_eq!(answer(&functions), "no 9 256 -");
}

#[test]
fn types_name_enums_that_are_there() {
    let named = of(Type::Enum(1));
    let field = [enumeration(0), case(1, 0), named, CLOSE];
    assert_eq!(answer(&field), "no 9 2 -");
    assert_eq!(answer(&join(&[&field, &bare_enum(1)])), "ok 2 0");
    let parameter = [def(1, 0), named, of(Type::Unit), UNIT, CLOSE];
    assert_eq!(answer(&join(&[&bare_enum(0), &parameter])), "no 9 4 -");
    let result = [def(0, 0), named, UNIT, CLOSE];
    assert_eq!(answer(&join(&[&bare_enum(0), &result])), "no 9 4 -");
    let exit = body(Type::Unit, &[SEQ, EXIT, named, text(0, 0), UNIT]);
    assert_eq!(answer(&join(&[&bare_enum(0), &exit])), "no 9 7 -");
    assert_eq!(answer(&join(&[&exit, &bare_enum(0), &bare_enum(1)])), "ok 2 1");
}

#[test]
fn what_is_there_goes_by_count_and_not_by_number() {
    let field = |number| [enumeration(0), case(1, 0), of(Type::Enum(number)), CLOSE];
    // There are two enums, so 1 can be named; the second has a wrong number.
    assert_eq!(answer(&join(&[&field(1), &bare_enum(5)])), "no 9 4 -");
    // 5 can't, though an enum wears that number.
    assert_eq!(answer(&join(&[&field(5), &bare_enum(5)])), "no 9 2 -");
    let calling = |number| function(0, &[], Type::Unit, &[call(0, number)]);
    assert_eq!(answer(&join(&[&calling(1), &unit_function(5)])), "no 9 4 -");
    assert_eq!(answer(&join(&[&calling(5), &unit_function(5)])), "no 9 2 -");
    let making = body(Type::Enum(0), &[make(0, 0, 1)]);
    let cases = [enumeration(0), case(0, 0), case(0, 9), CLOSE];
    assert_eq!(answer(&join(&[&making, &cases])), "no 9 6 -");
}

#[test]
fn makes_name_cases_of_their_own_enum() {
    let enums = join(&[&[enumeration(0), case(0, 0), case(0, 1), CLOSE], &bare_enum(1)]);
    let making = |number, chosen| body(Type::Enum(number), &[make(0, number, chosen)]);
    assert_eq!(answer(&join(&[&enums, &making(0, 1)])), "ok 2 1");
    assert_eq!(answer(&join(&[&enums, &making(0, 2)])), "no 9 9 -");
    assert_eq!(answer(&join(&[&enums, &making(1, 0)])), "ok 2 1");
    assert_eq!(answer(&join(&[&enums, &making(1, 1)])), "no 9 9 -");
    let missing = body(Type::Unit, &[SEQ, make(0, 2, 0), UNIT]);
    assert_eq!(answer(&join(&[&enums, &missing])), "no 9 10 -");
}

#[test]
fn texts_end_within_the_text_bytes() {
    let with = |place, length| body(Type::Text, &[text(place, length)]);
    assert_eq!(answer_with(&with(0, 4), b"Spit"), "ok 0 1");
    assert_eq!(answer_with(&with(0, 5), b"Spit"), "no 9 2 -");
    assert_eq!(answer_with(&with(1, 3), b"Spit"), "ok 0 1");
    assert_eq!(answer_with(&with(1, 4), b"Spit"), "no 9 2 -");
    assert_eq!(answer_with(&with(4, 0), b"Spit"), "ok 0 1");
    assert_eq!(answer_with(&with(5, 0), b"Spit"), "no 9 2 -");
    assert_eq!(answer(&with(0, 0)), "ok 0 1");
    assert_eq!(answer(&with(1, 0)), "no 9 2 -");
}

#[test]
fn an_arm_names_no_missing_case() {
    let matching = [MATCH, make(0, 0, 0), arm(0, 0, 15), UNIT, CLOSE];
    assert_eq!(answer(&join(&[&bare_enum(0), &body(Type::Unit, &matching)])), "no 13 5 -");
}

#[test]
fn lowest_record_counts_and_before_types() {
    let unbound = body(Type::Unit, &[local(9)]);
    assert_eq!(answer(&join(&[&unbound, &unit_function(2), &bare_enum(3)])), "no 9 4 -");
    assert_eq!(answer(&body(Type::Unit, &[SEQ, text(1, 0), call(0, 7)])), "no 9 3 -");
}
