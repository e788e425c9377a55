use reference::check;
use reference::shorthand::card_k;

/// The worked card byte by byte, so that nothing here rests on the shorthand.
const CARD_K: [u8; 145] = [
    0x52, 0x55, 0x4C, 1, 0, 17, 0, 0, 0, //
    1, 0, 0, 0, 0, 0, 0, 0, // 0: ENUM 0
    2, 0, 0, 0, 0, 0, 0, 0, // 1: CASE 0
    2, 1, 1, 0, 0, 0, 0, 0, // 2: CASE 1, one field
    8, 3, 0, 0, 0, 0, 0, 0, // 3: TYPE text
    0, 0, 0, 0, 0, 0, 0, 0, // 4: CLOSE
    3, 2, 0, 0, 0, 0, 0, 0, // 5: DEF 0, two parameters
    8, 1, 0, 0, 0, 0, 0, 0, // 6: TYPE number
    8, 3, 0, 0, 0, 0, 0, 0, // 7: TYPE text
    8, 4, 0, 0, 0, 0, 0, 0, // 8: TYPE enum 0
    29, 0, 0, 0, 0, 0, 0, 0, // 9: IF
    27, 0, 0, 0, 0, 0, 0, 0, // 10: LT
    20, 0, 0, 0, 0, 0, 0, 0, // 11: LOCAL 0
    17, 0, 0, 0, 0x50, 0xC3, 0, 0, // 12: NUM 50000
    32, 1, 0, 0, 1, 0, 0, 0, // 13: MAKE case 1, one argument
    20, 0, 1, 0, 0, 0, 0, 0, // 14: LOCAL 1
    32, 0, 0, 0, 0, 0, 0, 0, // 15: MAKE case 0
    0, 0, 0, 0, 0, 0, 0, 0, // 16: CLOSE
];

/// The card without a record, its count put right.
fn without(record: usize) -> Vec<u8> {
    let mut image = CARD_K.to_vec();
    image[5] = 16;
    image.drain(9 + 8 * record..9 + 8 * (record + 1));
    image
}

#[test]
fn is_accepted() {
    assert_eq!(check(&CARD_K).to_string(), "ok 1 1");
}

#[test]
fn is_what_the_shorthand_writes() {
    assert_eq!(card_k().image(), CARD_K);
}

#[test]
fn open_groups_are_not_closed_for_it() {
    assert_eq!(check(&without(4)).to_string(), "no 8 4 0");
    assert_eq!(check(&without(16)).to_string(), "no 8 16 5");
}

#[test]
fn loses_its_types_one_by_one() {
    // Without its second parameter's TYPE the result's takes its place.
    assert_eq!(check(&without(7)).to_string(), "no 8 8 5");
    // Without the TYPE of its field, the CLOSE comes where a TYPE must.
    assert_eq!(check(&without(3)).to_string(), "no 8 3 0");
    // Without its condition's LT, LOCAL 0 is the condition, NUM and MAKE the
    // branches, and the last MAKE is one too many.
    assert_eq!(check(&without(10)).to_string(), "no 8 14 5");
}
