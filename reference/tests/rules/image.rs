use super::{answer, answer_with};
use reference::check;
use reference::image::header;
use reference::shorthand::*;
use reference::tree::Type;

/// A good card of four records and no text.
fn small() -> Vec<u8> {
    reference::image::Draft::new(body(Type::Unit, &[UNIT]), b"").image()
}

fn answer_to(image: &[u8]) -> String {
    check(image).to_string()
}

#[test]
fn short_images() {
    assert_eq!(answer_to(&[]), "no 2 - -");
    assert_eq!(answer_to(&small()[..8]), "no 2 - -");
    assert_eq!(answer_to(&[0; 8]), "no 2 - -");
    assert_eq!(answer_to(&[0; 9]), "no 3 - -");
    assert_eq!(answer_to(&small()[..9]), "no 6 - -");
}

#[test]
fn letters_then_version_then_counts_then_length() {
    for at in 0..3 {
        let mut image = small();
        image[at] ^= 0x20;
        image[3] = 2;
        assert_eq!(answer_to(&image), "no 3 - -");
    }
    for version in [0, 2, 256, 257, 65_535] {
        assert_eq!(answer_to(&header(version, 0, 0)), "no 4 - -");
    }
    assert_eq!(answer_to(&header(1, 0, 0)), "no 5 - -");
    assert_eq!(answer_to(&header(1, 513, 0)), "no 5 - -");
    assert_eq!(answer_to(&header(1, 512, 2049)), "no 5 - -");
    assert_eq!(answer_to(&header(1, 512, 2048)), "no 6 - -");
    assert_eq!(answer_to(&header(1, 1, 0)), "no 6 - -");
}

#[test]
fn length_is_exact() {
    let mut image = small();
    assert_eq!(answer_to(&image), "ok 0 1");
    image.push(0);
    assert_eq!(answer_to(&image), "no 6 - -");
    image.truncate(9 + 8 * 4 - 1);
    assert_eq!(answer_to(&image), "no 6 - -");
}

#[test]
fn most_records_and_text() {
    let mut expression = [SEQ, UNIT].repeat(254);
    expression.push(UNIT);
    let mut records = body(Type::Unit, &expression);
    assert_eq!(records.len(), 512);
    assert_eq!(answer_with(&records, &[0; 2048]), "ok 0 1");
    assert_eq!(answer_with(&records, &[0; 2049]), "no 5 - -");
    records.push(CLOSE);
    assert_eq!(answer(&records), "no 5 - -");
    assert_eq!(answer(&records[..511]), "no 8 511 0");
}
