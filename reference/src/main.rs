//! The commands; see README.md.

use std::error::Error;
use std::fmt::Write as _;
use std::fs;
use std::io::{self, Read};
use std::process::ExitCode;
use std::time::Instant;

use reference::run::{run, Limits};
use reference::start::Argument;
use reference::tally::Tally;
use reference::{check, compare, entries, generate, load, shorthand};

const USAGE: &str = "usage:
  reference check < IMAGE
  reference table SEED COUNT IMAGES_FILE ANSWERS_FILE
  reference compare PROGRAM SEED COUNT
  reference compare-one PROGRAM SEED COUNT
  reference time SEED COUNT
  reference card K FILE
  reference run IMAGE FUNCTION MOST ARGUMENT...";

/// Whether the command found what it hoped for, or why it could not be done.
type Done = Result<bool, Box<dyn Error>>;

fn main() -> ExitCode {
    let arguments: Vec<String> = std::env::args().skip(1).collect();
    let words: Vec<&str> = arguments.iter().map(String::as_str).collect();
    match command(&words) {
        Ok(true) => ExitCode::SUCCESS,
        Ok(false) => ExitCode::FAILURE,
        Err(fault) => {
            eprintln!("reference: {fault}");
            ExitCode::from(2)
        }
    }
}

fn command(words: &[&str]) -> Done {
    match words {
        ["check"] => check_input(),
        ["table", seed, count, images, answers] => {
            table(seed.parse()?, count.parse()?, images, answers)
        }
        ["compare", program, seed, count] => {
            Ok(compare::in_batches(program, seed.parse()?, count.parse()?)?.agrees())
        }
        ["compare-one", program, seed, count] => {
            Ok(compare::one_by_one(program, seed.parse()?, count.parse()?)?.agrees())
        }
        ["time", seed, count] => Ok(time(seed.parse()?, count.parse()?)),
        ["card", "K", file] => {
            fs::write(file, shorthand::card_k().image())?;
            Ok(true)
        }
        ["run", image, function, most, arguments @ ..] => {
            run_function(image, function.parse()?, most.parse()?, arguments)
        }
        _ => Err(USAGE.into()),
    }
}

fn check_input() -> Done {
    let mut image = Vec::new();
    io::stdin().read_to_end(&mut image)?;
    println!("{}", check(&image));
    Ok(true)
}

fn table(seed: u64, count: usize, images_file: &str, answers_file: &str) -> Done {
    let images: Vec<Vec<u8>> = generate::images(seed, count).collect();
    let mut answers = String::new();
    let mut tally = Tally::default();
    for image in &images {
        let verdict = check(image);
        tally.add(&verdict);
        writeln!(answers, "{verdict}")?;
    }
    let packed = entries::pack(&images);
    fs::write(images_file, &packed)?;
    fs::write(answers_file, &answers)?;
    println!(
        "{} images in {} bytes, answers in {} bytes",
        images.len(),
        packed.len(),
        answers.len()
    );
    println!("answers: {tally}");
    Ok(true)
}

fn time(seed: u64, count: usize) -> bool {
    const ROUNDS: usize = 5;
    let images: Vec<Vec<u8>> = generate::images(seed, count).collect();
    for round in 1..=ROUNDS {
        let start = Instant::now();
        let mut tally = Tally::default();
        images.iter().for_each(|image| tally.add(&check(image)));
        let seconds = start.elapsed().as_secs_f64();
        println!(
            "round {round}: {:.0} images per second, answers: {tally}",
            count as f64 / seconds
        );
    }
    true
}

fn run_function(image: &str, function: usize, most: u16, words: &[&str]) -> Done {
    let card = load(&fs::read(image)?)?;
    let arguments: Vec<Argument> =
        words.iter().map(|word| word.parse()).collect::<Result<_, _>>()?;
    println!("{}", run(&card, function, &arguments, most, Limits::PLOTTER)?);
    Ok(true)
}
