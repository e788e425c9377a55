//! Small cards written by hand, with the answers that the rules give for them.

mod fields;
mod image;
mod names;
mod order;
mod types;
mod worked;

use reference::check;
use reference::image::Draft;
use reference::record::Record;

/// The answer for these records without text.
fn answer(records: &[Record]) -> String {
    answer_with(records, b"")
}

fn answer_with(records: &[Record], text: &[u8]) -> String {
    check(&Draft::new(records.to_vec(), text).image()).to_string()
}

/// Joins runs of records.
fn join(runs: &[&[Record]]) -> Vec<Record> {
    runs.concat()
}
