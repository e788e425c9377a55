use super::{join, line, line_with_enum, number, run_on, samples, A, B};
use reference::record::Record;
use reference::shorthand::*;
use reference::tree::Type::{Boolean, Enum, Number, Text, Unit};

fn equal(left: &[Record], right: &[Record]) -> String {
    line(Boolean, &join(&[&[EQ], left, right]))
}

/// The answer and the units of comparing alone, without the EQ and its parts.
fn compared(left: &[Record], right: &[Record]) -> (String, usize) {
    let found = line_with_enum(Boolean, &join(&[&[EQ], left, right]));
    let words: Vec<&str> = found.split(' ').collect();
    assert_eq!(words[0], "0", "{found}");
    let units: usize = words[2].parse().expect("units are a number");
    (words[3].to_string(), units - 1 - left.len() - right.len())
}

fn four(numbers: [i32; 4]) -> Vec<Record> {
    join(&[&[make(4, 0, 2)], &numbers.map(num)])
}

fn yes(units: usize) -> (String, usize) {
    ("true".to_string(), units)
}

fn no(units: usize) -> (String, usize) {
    ("false".to_string(), units)
}

#[test]
fn a_pair_is_one_unit() {
    assert_eq!(equal(&[UNIT], &[UNIT]), "0 - 4 true -");
    assert_eq!(equal(&[num(5)], &[num(5)]), "0 - 4 true -");
    assert_eq!(equal(&[num(5)], &[num(-5)]), "0 - 4 false -");
    assert_eq!(equal(&[boolean(false)], &[boolean(false)]), "0 - 4 true -");
    assert_eq!(equal(&[boolean(false)], &[boolean(true)]), "0 - 4 false -");
}

#[test]
fn texts_are_compared_by_their_bytes() {
    assert_eq!(equal(&[A], &[A]), "0 - 4 true x61;x61");
    assert_eq!(equal(&[A], &[B]), "0 - 4 false x61;x62");
    assert_eq!(equal(&[text(0, 0)], &[text(9, 0)]), "0 - 4 true x;x");
    assert_eq!(equal(&[text(0, 2)], &[text(0, 3)]), "0 - 4 false x6162;x616263");
    assert_eq!(equal(&[CONCAT, A, B], &[text(0, 2)]), "0 - 6 true x61;x62;x6162;x6162");
}

#[test]
fn different_cases_need_no_fields() {
    assert_eq!(compared(&[make(0, 0, 0)], &[make(1, 0, 1), A]), no(1));
    assert_eq!(compared(&four([1, 2, 3, 4]), &[make(1, 0, 1), A]), no(1));
    assert_eq!(compared(&[make(0, 0, 0)], &[make(0, 0, 0)]), yes(1));
}

#[test]
fn fields_are_compared_until_one_differs() {
    let one = four([1, 2, 3, 4]);
    assert_eq!(compared(&one, &four([1, 2, 3, 4])), yes(5));
    assert_eq!(compared(&one, &four([1, 2, 3, 0])), no(5));
    assert_eq!(compared(&one, &four([1, 2, 0, 4])), no(4));
    assert_eq!(compared(&one, &four([1, 0, 3, 4])), no(3));
    assert_eq!(compared(&one, &four([0, 2, 3, 4])), no(2));
    assert_eq!(compared(&one, &four([0, 0, 0, 0])), no(2));
}

#[test]
fn a_field_that_differs_within_ends_it_too() {
    let outer = |first, within: &[Record]| join(&[&[make(2, 0, 3), num(first)], within]);
    let (one, other) = (four([1, 2, 3, 4]), four([1, 9, 3, 4]));
    assert_eq!(compared(&outer(1, &one), &outer(1, &one)), yes(2 + 5));
    assert_eq!(compared(&outer(1, &one), &outer(1, &other)), no(2 + 3));
    assert_eq!(compared(&outer(1, &one), &outer(2, &one)), no(2));
    assert_eq!(compared(&outer(1, &one), &outer(1, &[make(0, 0, 0)])), no(2 + 1));
}

#[test]
fn one_place_is_compared_with_itself_in_full() {
    let same = join(&[&[val(0)], &four([1, 2, 3, 4]), &[EQ, local(0), local(0)]]);
    // VAL, the value, EQ and its parts, then the values and four pairs.
    assert_eq!(line_with_enum(Boolean, &same), "0 - 14 true 0.2(1,2,3,4)");
}

/// Function 1 wraps its second parameter as many times as its first one says.
/// Function 0 has it do so four times over, by its own parameter, and compares
/// the value with itself.
fn nested_compare() -> Vec<Record> {
    let build = [
        &[IF, LT, local(0), num(1), local(1)][..],
        &[call(2, 1), ADD, local(0), num(-1)],
        &[make(2, 0, 3), local(0), local(1)],
    ];
    // In one round the calls themselves would be too deep.
    let round = [call(2, 1), local(0)];
    let whole = join(&[&round, &round, &round, &round, &[make(0, 0, 0)]]);
    let compare = join(&[&[val(1)], &whole, &[EQ, local(1), local(1)]]);
    let functions = [
        function(0, &[Number], Boolean, &compare),
        function(1, &[Number, Enum(0)], Enum(0), &join(&build)),
    ];
    join(&[&samples(), &functions[0], &functions[1]])
}

#[test]
fn a_deep_value_is_compared() {
    // VAL, EQ, then one comparison for each level, the bare one innermost.
    let ended = run_on(&nested_compare(), &[number(63)]);
    assert_eq!(ended.cells.len(), 253);
    assert_eq!(ended.to_string().split(' ').nth(3), Some("true"));
}

#[test]
fn a_deeper_one_is_too_deep() {
    let ended = run_on(&nested_compare(), &[number(64)]);
    assert_eq!(ended.cells.len(), 257);
    // The EQ behind VAL, the four calls with their counts, and the bare MAKE.
    assert_eq!((ended.ending.number(), ended.record), (6, Some(16 + 1 + 8 + 1)));
    assert_eq!(ended.value, None);
}

#[test]
fn arguments_are_compared_alike() {
    let same = function(0, &[Text, Unit], Boolean, &[EQ, local(0), text(0, 2)]);
    let on = |letters: &str| {
        let arguments = [super::text_of(letters), reference::start::Argument::Unit];
        run_on(&same, &arguments).to_string()
    };
    assert_eq!(on("ab"), "0 - 4 true x6162;x6162");
    assert_eq!(on("ba"), "0 - 4 false x6261;x6162");
}
