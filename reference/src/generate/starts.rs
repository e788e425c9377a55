//! Runs to try, the same for one seed on every machine: a good card, one of
//! its functions, what that is run on and over how large a store.

use super::plan::Size;
use super::{counted, grown};
use crate::image::Draft;
use crate::load;
use crate::random::Random;
use crate::shorthand::*;
use crate::start::Argument;
use crate::tree::{Card, Type};

#[derive(Clone, Debug, PartialEq, Eq)]
pub struct Start {
    pub image: Vec<u8>,
    pub function: usize,
    pub arguments: Vec<Argument>,
    /// The store's most. The texts among the arguments may already be more.
    pub most: u16,
}

/// The first starts of a seed's endless list.
pub fn starts(seed: u64, count: usize) -> impl Iterator<Item = Start> {
    (0..count).map(move |index| drawn(&mut Random::for_image(seed, index)))
}

/// Draws cards until one can be started.
fn drawn(random: &mut Random) -> Start {
    loop {
        let image = draft(random).image();
        let card = load(&image).expect("a card without slips is good");
        let startable = startable(&card);
        if !startable.is_empty() {
            let function = random.pick(&startable);
            let parameters = &card.functions[function].parameters;
            let arguments = parameters.iter().filter_map(|of| argument(random, *of)).collect();
            return Start { image, function, arguments, most: most(random) };
        }
    }
}

fn draft(random: &mut Random) -> Draft {
    let size = match random.below(20) {
        0..=3 => return grown(random),
        4 => return nest(random),
        5..=15 => Size { enums: 3, cases: 3, functions: 3, body: 36, text: 60 },
        16 | 17 => Size { enums: 2, cases: 4, functions: 8, body: 24, text: 30 },
        _ => Size { enums: 5, cases: 5, functions: 5, body: 90, text: 200 },
    };
    counted::card(random, size)
}

/// A card whose function 0 builds a value in some rounds, each as deep as its
/// parameter says, and compares it with itself, which may be too deep.
fn nest(random: &mut Random) -> Draft {
    let (number, value) = (Type::Number, Type::Enum(0));
    let mut records = vec![enumeration(0), case(0, 0), case(2, 1), of(number), of(value), CLOSE];
    let rounds = [call(2, 1), local(0)].repeat(random.between(1, 6));
    let compare = [&[val(1)], &rounds[..], &[make(0, 0, 0), EQ, local(1), local(1)]].concat();
    records.extend(function(0, &[number], Type::Boolean, &compare));
    let done = [IF, LT, local(0), num(1), local(1)];
    let again = [call(2, 1), ADD, local(0), num(-1), make(2, 0, 1), local(0), local(1)];
    let build = [&done[..], &again].concat();
    records.extend(function(1, &[number, value], value, &build));
    Draft::new(records, b"")
}

/// The functions that can be handed all their arguments.
fn startable(card: &Card) -> Vec<usize> {
    let plain = |parameter: &Type| !matches!(parameter, Type::Enum(_));
    (0..card.functions.len())
        .filter(|function| card.functions[*function].parameters.iter().all(plain))
        .collect()
}

fn argument(random: &mut Random, parameter: Type) -> Option<Argument> {
    match parameter {
        Type::Unit => Some(Argument::Unit),
        Type::Number => Some(Argument::Number(count(random))),
        Type::Boolean => Some(Argument::Boolean(random.chance(500))),
        Type::Text => Some(Argument::Text(letters(random))),
        Type::Enum(_) => None,
    }
}

/// Mostly small, for it may be a count.
fn count(random: &mut Random) -> i32 {
    match random.below(12) {
        0..=5 => random.below(6) as i32,
        6..=8 => random.below(30) as i32,
        9 => random.pick(&[50, 63, 64, 84, 85, 86, 127, 128, 255, 256]),
        10 => random.pick(&[-1, -2, i32::MIN, i32::MIN + 1, i32::MAX - 1, i32::MAX]),
        _ => random.draw() as i32,
    }
}

fn letters(random: &mut Random) -> Vec<u8> {
    let length = random.pick(&[0, 1, 1, 2, 3, 12, 23, 24]);
    (0..length).map(|_| random.pick(b"ab")).collect()
}

fn most(random: &mut Random) -> u16 {
    match random.below(10) {
        0 | 1 => random.below(4) as u16,
        2 | 3 => random.below(40) as u16,
        4 => random.below(2000) as u16,
        _ => u16::MAX,
    }
}
