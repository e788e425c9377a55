//! The outer form of an image: tests 2 to 6.

use crate::record::{Record, SIZE};
use crate::verdict::Refusal;

pub const LETTERS: &[u8; 3] = b"RUL";
pub const VERSION: u16 = 1;
pub const HEADER: usize = 9;
pub const MOST_RECORDS: usize = 512;
pub const MOST_TEXT: usize = 2048;

/// An image whose header and length are right.
#[derive(Clone, Debug)]
pub struct Image {
    pub records: Vec<Record>,
    /// To a check only their count matters; a run uses the bytes themselves.
    pub text: Vec<u8>,
}

pub fn read(bytes: &[u8]) -> Result<Image, Refusal> {
    if bytes.len() < HEADER {
        return Err(Refusal::image(2));
    }
    if !bytes.starts_with(LETTERS) {
        return Err(Refusal::image(3));
    }
    if word(bytes, 3) != VERSION {
        return Err(Refusal::image(4));
    }
    let count = usize::from(word(bytes, 5));
    let text_length = usize::from(word(bytes, 7));
    if count == 0 || count > MOST_RECORDS || text_length > MOST_TEXT {
        return Err(Refusal::image(5));
    }
    if bytes.len() != HEADER + SIZE * count + text_length {
        return Err(Refusal::image(6));
    }
    let records = (0..count).map(|at| record_at(bytes, at)).collect();
    Ok(Image { records, text: bytes[HEADER + SIZE * count..].to_vec() })
}

fn word(bytes: &[u8], at: usize) -> u16 {
    u16::from_le_bytes([bytes[at], bytes[at + 1]])
}

fn record_at(bytes: &[u8], at: usize) -> Record {
    let start = HEADER + SIZE * at;
    let mut own = [0; SIZE];
    own.copy_from_slice(&bytes[start..start + SIZE]);
    Record::from_bytes(own)
}

/// Records and text on their way to become an image, right or wrong.
#[derive(Clone, Debug, Default, PartialEq, Eq)]
pub struct Draft {
    pub records: Vec<Record>,
    pub text: Vec<u8>,
}

impl Draft {
    pub fn new(records: Vec<Record>, text: &[u8]) -> Self {
        Draft { records, text: text.to_vec() }
    }

    /// The image, with the header that its records and text call for.
    pub fn image(&self) -> Vec<u8> {
        let count = u16::try_from(self.records.len()).expect("drafts are small");
        let text_length = u16::try_from(self.text.len()).expect("drafts are small");
        let mut bytes = header(VERSION, count, text_length);
        for record in &self.records {
            bytes.extend(record.to_bytes());
        }
        bytes.extend(&self.text);
        bytes
    }
}

/// A header that may lie about what follows it.
pub fn header(version: u16, count: u16, text_length: u16) -> Vec<u8> {
    let mut bytes = LETTERS.to_vec();
    bytes.extend(version.to_le_bytes());
    bytes.extend(count.to_le_bytes());
    bytes.extend(text_length.to_le_bytes());
    bytes
}
