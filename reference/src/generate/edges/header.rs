//! Tests 2 to 6.

use crate::image::{header, Draft};
use crate::shorthand::*;
use crate::tree::Type;

pub fn images() -> Vec<Vec<u8>> {
    let mut images = short();
    images.extend(letters());
    images.extend(versions());
    images.extend(counts());
    images.extend(lengths());
    images.extend(several());
    images
}

fn small() -> Draft {
    Draft::new(body(Type::Unit, &[UNIT]), b"")
}

/// Beginnings of a good image, and headers alone.
fn short() -> Vec<Vec<u8>> {
    let whole = small().image();
    let mut images: Vec<Vec<u8>> = (0..=10).map(|length| whole[..length].to_vec()).collect();
    images.extend([header(1, 0, 0), header(1, 1, 0), header(1, 1, 1), vec![0; 8], vec![0; 9]]);
    images
}

fn letters() -> Vec<Vec<u8>> {
    let mut images = Vec::new();
    for at in 0..3 {
        for flip in [1, 0x20, 0x80, 0xFF] {
            let mut image = small().image();
            image[at] ^= flip;
            images.push(image);
        }
    }
    let mut turned = small().image();
    turned[..3].reverse();
    images.push(turned);
    images
}

fn versions() -> Vec<Vec<u8>> {
    let mut images = Vec::new();
    for version in [0u16, 2, 255, 256, 257, 513, 65_535] {
        let mut image = small().image();
        image[3..5].copy_from_slice(&version.to_le_bytes());
        images.push(image);
    }
    images
}

/// Counts in the header with little behind it.
fn counts() -> Vec<Vec<u8>> {
    let mut images = Vec::new();
    for count in [0, 3, 4, 512, 513, 65_535] {
        for text_length in [0, 1, 2048, 2049, 65_535] {
            let mut image = header(1, count, text_length);
            image.extend(&small().image()[9..]);
            images.push(image);
        }
    }
    // As long as the counts say, but out of range.
    images.push([header(1, 0, 3), vec![0; 3]].concat());
    images
}

/// One byte or one record more or less than the counts say.
fn lengths() -> Vec<Vec<u8>> {
    let mut images = Vec::new();
    for bytes in [&b""[..], b"Spit"] {
        let whole = Draft::new(body(Type::Text, &[text(0, bytes.len() as i32)]), bytes).image();
        for lost in [0, 1, 4, 8] {
            images.push(whole[..whole.len() - lost].to_vec());
        }
        for added in [1, 4, 8] {
            images.push([whole.clone(), vec![0; added]].concat());
        }
    }
    images
}

/// Several of these faults at once, so that their order decides.
fn several() -> Vec<Vec<u8>> {
    let mut images = vec![
        b"ruL\0\0\0\0\0".to_vec(),
        b"ruL\0\0\0\0\0\0".to_vec(),
        header(2, 0, 0),
        header(2, 1, 0),
        header(0, 513, 2049),
        header(1, 513, 2049),
        header(1, 0, 2049),
    ];
    let mut unknown_kind = small();
    unknown_kind.records[1].kind = 255;
    let mut one_short = unknown_kind.image();
    one_short.pop();
    images.push(one_short);
    images.push(unknown_kind.image());
    images
}
