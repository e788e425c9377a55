//! Small cards written by hand, with the runs that the rules give for them,
//! and many drawn ones.

mod arithmetic;
mod command;
mod comparing;
mod drawn;
mod endings;
mod limits;
mod order;
mod scope;
mod starts;
mod stores;
mod stuck;
mod worked;

use reference::ended::Ended;
use reference::image::Draft;
use reference::load;
use reference::record::Record;
use reference::run::{run, Limits};
use reference::shorthand::*;
use reference::start::Argument;
use reference::tree::{Card, Type};

/// The text bytes of most cards here.
const LETTERS: &[u8; 26] = b"abcdefghijklmnopqrstuvwxyz";

/// Texts that these records stand for, over `LETTERS`.
const A: Record = Record::new(19, 0, 0, 1);
const B: Record = Record::new(19, 0, 1, 1);

fn card(records: &[Record]) -> Card {
    load(&Draft::new(records.to_vec(), LETTERS).image()).expect("the card is good")
}

/// Joins runs of records.
fn join(runs: &[&[Record]]) -> Vec<Record> {
    runs.concat()
}

/// A run of function 0, over a store with this most.
fn run_over(most: u16, records: &[Record], arguments: &[Argument]) -> Ended {
    run(&card(records), 0, arguments, most, Limits::PLOTTER).expect("the run can be started")
}

/// A run of function 0, over the largest store.
fn run_on(records: &[Record], arguments: &[Argument]) -> Ended {
    run_over(u16::MAX, records, arguments)
}

/// The line for a function that takes nothing; its body begins at record 2.
fn line(result: Type, expression: &[Record]) -> String {
    line_over(u16::MAX, result, expression)
}

fn line_over(most: u16, result: Type, expression: &[Record]) -> String {
    run_over(most, &body(result, expression), &[]).to_string()
}

/// An enum with a bare case 0, a case 1 of a text, a case 2 of four numbers,
/// and a case 3 of a number and one more of the enum: records 0 to 12.
fn samples() -> Vec<Record> {
    let mut records = vec![enumeration(0), case(0, 0), case(1, 1), of(Type::Text), case(4, 2)];
    records.extend([of(Type::Number); 4]);
    records.extend([case(2, 3), of(Type::Number), of(Type::Enum(0)), CLOSE]);
    records
}

/// The line for such a function behind `samples`; its body begins at 15.
fn line_with_enum(result: Type, expression: &[Record]) -> String {
    run_on(&join(&[&samples(), &body(result, expression)]), &[]).to_string()
}

fn number(value: i32) -> Argument {
    Argument::Number(value)
}

fn text_of(letters: &str) -> Argument {
    Argument::Text(letters.into())
}
