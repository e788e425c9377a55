use super::{card, number, text_of};
use reference::record::Record;
use reference::run::{run, Limits};
use reference::shorthand::*;
use reference::start::{Argument, Fault};
use reference::tree::Type::{Boolean, Enum, Number, Text, Unit};

fn started(records: &[Record], most: u16, arguments: &[Argument]) -> Result<String, Fault> {
    run(&card(records), 0, arguments, most, Limits::PLOTTER).map(|ended| ended.to_string())
}

#[test]
fn the_function_must_be_there() {
    let two = [body(Unit, &[UNIT]), function(1, &[], Number, &[num(4)])].concat();
    let run_of = |function| run(&card(&two), function, &[], 0, Limits::PLOTTER);
    assert_eq!(run_of(0).map(|ended| ended.to_string()), Ok("0 - 1 unit -".to_string()));
    assert_eq!(run_of(1).map(|ended| ended.to_string()), Ok("0 - 1 4 -".to_string()));
    assert_eq!(run_of(2), Err(Fault::NoFunction));
}

#[test]
fn there_are_as_many_arguments_as_parameters() {
    let one = function(0, &[Number], Unit, &[UNIT]);
    assert_eq!(started(&one, 9, &[]), Err(Fault::WrongCount));
    assert_eq!(started(&one, 9, &[number(1), number(2)]), Err(Fault::WrongCount));
}

#[test]
fn they_have_the_parameters_types() {
    let all = function(0, &[Unit, Number, Boolean, Text], Unit, &[UNIT]);
    let right = [Argument::Unit, number(1), Argument::Boolean(true), text_of("")];
    assert_eq!(started(&all, 9, &right), Ok("0 - 1 unit x".to_string()));
    for at in 0..4 {
        let mut wrong = right.to_vec();
        wrong[at] = right[(at + 1) % 4].clone();
        assert_eq!(started(&all, 9, &wrong), Err(Fault::WrongType(at)));
    }
}

#[test]
fn enum_values_cannot_be_handed_in() {
    let mut records = vec![enumeration(0), case(0, 0), CLOSE];
    records.extend(function(0, &[Enum(0)], Unit, &[UNIT]));
    for argument in [Argument::Unit, number(0), Argument::Boolean(false), text_of("")] {
        assert_eq!(started(&records, 9, &[argument]), Err(Fault::WrongType(0)));
    }
}

#[test]
fn texts_have_at_most_24_bytes() {
    let two = function(0, &[Number, Text], Unit, &[UNIT]);
    let letters = "abcdefghijklmnopqrstuvwxyz";
    assert!(started(&two, 9, &[number(1), text_of(&letters[..24])]).is_ok());
    let long = [number(1), text_of(&letters[..25])];
    assert_eq!(started(&two, 9, &long), Err(Fault::LongText(1)));
    // Even where they would not fit the store.
    assert_eq!(started(&two, 0, &long), Err(Fault::LongText(1)));
}

#[test]
fn texts_are_put_first_and_in_order() {
    let texts = function(0, &[Text, Number, Text, Text], Text, &[CONCAT, local(2), local(0)]);
    let arguments = [text_of("a"), number(1), text_of("b"), text_of("a")];
    assert_eq!(started(&texts, 9, &arguments), Ok("0 - 3 @3 x61;x62;x61;x6261".to_string()));
    assert_eq!(started(&texts, 3, &arguments), Ok("5 6 3 - x61;x62;x61".to_string()));
}

#[test]
fn a_store_too_small_for_them_is_refused() {
    let texts = function(0, &[Text, Text], Unit, &[UNIT]);
    let arguments = [text_of("a"), text_of("a")];
    assert_eq!(started(&texts, 1, &arguments), Err(Fault::FullStore));
    assert_eq!(started(&texts, 0, &arguments), Err(Fault::FullStore));
    assert_eq!(started(&texts, 2, &arguments), Ok("0 - 1 unit x61;x61".to_string()));
}
