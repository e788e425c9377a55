//! Harms finished images byte by byte.

use super::{damaged, grown};
use crate::random::Random;

/// An image with a harm that takes no heed of records.
pub fn damaged_image(random: &mut Random) -> Vec<u8> {
    let mut bytes = match random.below(4) {
        0 => damaged(random, 2).image(),
        _ => grown(random).image(),
    };
    match random.below(10) {
        0..=3 => change_byte(random, &mut bytes),
        4 => change_header(random, &mut bytes),
        5 => change_letter(random, &mut bytes),
        6 => change_version(random, &mut bytes),
        7 => change_counts(random, &mut bytes),
        8 => cut(random, &mut bytes),
        _ => lengthen(random, &mut bytes),
    }
    bytes
}

/// Sets one byte, often by flipping a single bit.
fn change_byte(random: &mut Random, bytes: &mut [u8]) {
    let at = random.below(bytes.len());
    match random.below(2) {
        0 => bytes[at] = random.byte(),
        _ => bytes[at] ^= 1 << random.below(8),
    }
}

fn change_header(random: &mut Random, bytes: &mut [u8]) {
    let at = random.below(9);
    bytes[at] = random.pick(&[0, 1, 2, 8, 9, 0x52, 0x55, 0x4C, 255]);
}

fn change_letter(random: &mut Random, bytes: &mut [u8]) {
    let at = random.below(3);
    bytes[at] = random.byte();
}

fn change_version(random: &mut Random, bytes: &mut [u8]) {
    let version: u16 = random.pick(&[0, 2, 3, 255, 256, 257, 65_535]);
    bytes[3..5].copy_from_slice(&version.to_le_bytes());
}

fn change_counts(random: &mut Random, bytes: &mut [u8]) {
    let at = random.pick(&[5, 7]);
    let old = u16::from_le_bytes([bytes[at], bytes[at + 1]]);
    let edge = random.pick(&[0, 1, 512, 513, 2048, 2049, 65_535]);
    let new = random.pick(&[old.wrapping_sub(1), old.wrapping_add(1), edge, edge]);
    bytes[at..at + 2].copy_from_slice(&new.to_le_bytes());
}

fn cut(random: &mut Random, bytes: &mut Vec<u8>) {
    let all = bytes.len();
    let length = random.pick(&[all - 1, all - 8, 9, 8, 1, 0]);
    let drawn = random.below(all);
    bytes.truncate(random.pick(&[length, drawn]));
}

fn lengthen(random: &mut Random, bytes: &mut Vec<u8>) {
    let added = random.pick(&[1, 7, 8, 9]);
    bytes.extend((0..added).map(|_| random.byte()));
}
