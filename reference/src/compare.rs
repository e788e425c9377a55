//! Holds another checker's answers against this one's.

use std::io::{self, Read, Write};
use std::process::{Command, Output, Stdio};
use std::thread;

use crate::entries;
use crate::generate;
use crate::image::{header, MOST_TEXT};
use crate::random::Random;
use crate::tally::Tally;
use crate::verdict::Verdict;

/// Images given to one start of a program that takes many.
const BATCH: usize = 2000;

/// The outcome of a comparison so far.
#[derive(Default)]
pub struct Report {
    compared: usize,
    disagreements: usize,
    tally: Tally,
}

impl Report {
    pub fn agrees(&self) -> bool {
        self.disagreements == 0
    }

    fn add(&mut self, label: &str, image: &[u8], ours: &Verdict, theirs: &str) {
        self.compared += 1;
        self.tally.add(ours);
        if theirs != ours.to_string() {
            self.disagreements += 1;
            println!("{label}: {}", hex(image));
            println!("  here: {ours}");
            println!("  there: {theirs}");
        }
    }

    fn print(&self) {
        println!("answers: {}", self.tally);
        println!("compared {} images, {} disagreements", self.compared, self.disagreements);
    }
}

/// Compares in batches, with a program that reads entries and prints a line
/// for each.
pub fn in_batches(program: &str, seed: u64, count: usize) -> io::Result<Report> {
    let mut report = Report::default();
    let mut images = generate::images(seed, count);
    loop {
        let batch: Vec<Vec<u8>> = images.by_ref().take(BATCH).collect();
        if batch.is_empty() {
            break;
        }
        compare_batch(program, seed, &batch, &mut report)?;
    }
    report.print();
    Ok(report)
}

fn compare_batch(
    program: &str,
    seed: u64,
    batch: &[Vec<u8>],
    report: &mut Report,
) -> io::Result<()> {
    let output = run(program, entries::pack(batch))?;
    if !output.status.success() {
        report.disagreements += 1;
        println!("the program ended with {}", output.status);
    }
    let answers = String::from_utf8_lossy(&output.stdout);
    let mut lines = answers.lines();
    for image in batch {
        let label = format!("seed {seed} image {}", report.compared);
        let theirs = lines.next().unwrap_or("(no line)");
        report.add(&label, image, &crate::check(image), theirs);
    }
    let surplus = lines.count();
    if surplus > 0 {
        report.disagreements += 1;
        println!("{surplus} lines too many");
    }
    Ok(())
}

/// Compares one by one, with a program that reads one bare image, prints its
/// line and ends well.
pub fn one_by_one(program: &str, seed: u64, count: usize) -> io::Result<Report> {
    let mut report = Report::default();
    for (at, image) in oversize(seed).iter().enumerate() {
        compare_one(program, &format!("oversize {at}"), image, &mut report)?;
    }
    compare_one(program, "empty", &[], &mut report)?;
    for (index, image) in generate::images(seed, count).enumerate() {
        compare_one(program, &format!("seed {seed} image {index}"), &image, &mut report)?;
    }
    report.print();
    Ok(report)
}

fn compare_one(program: &str, label: &str, image: &[u8], report: &mut Report) -> io::Result<()> {
    let output = run(program, image.to_vec())?;
    let answer = String::from_utf8_lossy(&output.stdout);
    // One whole line and a good ending, or else the answer can't agree.
    let theirs = match answer.strip_suffix('\n') {
        Some(line) if output.status.success() => line.to_string(),
        _ => format!("{answer:?}, {}", output.status),
    };
    report.add(label, image, &crate::check(image), &theirs);
    Ok(())
}

/// Inputs longer than the longest card, with every header that matters.
fn oversize(seed: u64) -> Vec<Vec<u8>> {
    let mut random = Random::new(seed);
    let headers = [
        header(1, 512, 2048),
        header(1, 512, 2049),
        header(1, 513, 2048),
        header(1, 1, 0),
        header(2, 512, 2048),
        vec![0; 9],
    ];
    let mut inputs = Vec::new();
    for start in headers {
        for length in [6154, 6155, 8192, 65_536 + 9 + 8 * 512 + MOST_TEXT, 1_000_000] {
            let mut input = start.clone();
            input.extend((start.len()..length).map(|_| random.byte()));
            inputs.push(input);
        }
    }
    inputs
}

/// Runs a program on this input. A thread of its own feeds it, for a program
/// that answers as it reads would otherwise wait for us while we wait for it.
fn run(program: &str, input: Vec<u8>) -> io::Result<Output> {
    let mut child = Command::new(program).stdin(Stdio::piped()).stdout(Stdio::piped()).spawn()?;
    let mut stdin = child.stdin.take().expect("its input is a pipe");
    let feeder = thread::spawn(move || stdin.write_all(&input));
    let mut stdout = Vec::new();
    child.stdout.take().expect("its output is a pipe").read_to_end(&mut stdout)?;
    let status = child.wait()?;
    match feeder.join().expect("feeding doesn't panic") {
        // A program may end without reading all that it was offered.
        Err(fault) if fault.kind() != io::ErrorKind::BrokenPipe => Err(fault),
        _ => Ok(Output { status, stdout, stderr: Vec::new() }),
    }
}

/// The bytes in hexadecimal; of a very long input only the beginning.
fn hex(bytes: &[u8]) -> String {
    const SHOWN: usize = 6153;
    let shown: String = bytes.iter().take(SHOWN).map(|byte| format!("{byte:02x}")).collect();
    match bytes.len().checked_sub(SHOWN + 1) {
        None => shown,
        Some(_) => format!("{shown}... ({} bytes)", bytes.len()),
    }
}
