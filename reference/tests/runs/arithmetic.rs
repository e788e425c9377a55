use super::line;
use reference::record::Record;
use reference::shorthand::*;
use reference::tree::Type::{Boolean, Number};

const MIN: i32 = i32::MIN;
const MAX: i32 = i32::MAX;

/// What an operator at record 2 gives for two numbers.
fn calculated(sign: Record, left: i32, right: i32) -> Result<i32, u8> {
    let found = line(Number, &[sign, num(left), num(right)]);
    let words: Vec<&str> = found.split(' ').collect();
    match words[..] {
        ["0", "-", "3", value, "-"] => Ok(value.parse().expect("a number")),
        [ending, "2", "3", "-", "-"] => Err(ending.parse().expect("an ending")),
        _ => panic!("{found}"),
    }
}

#[test]
fn sums() {
    assert_eq!(calculated(ADD, 2, -3), Ok(-1));
    assert_eq!(calculated(ADD, MAX, MIN), Ok(-1));
    assert_eq!(calculated(ADD, MAX - 1, 1), Ok(MAX));
    assert_eq!(calculated(ADD, MAX, 1), Err(3));
    assert_eq!(calculated(ADD, MIN + 1, -1), Ok(MIN));
    assert_eq!(calculated(ADD, MIN, -1), Err(3));
    assert_eq!(calculated(ADD, MIN, MIN), Err(3));
}

#[test]
fn products() {
    assert_eq!(calculated(MUL, -6, 7), Ok(-42));
    assert_eq!(calculated(MUL, 46_340, 46_340), Ok(2_147_395_600));
    assert_eq!(calculated(MUL, 46_341, 46_341), Err(3));
    assert_eq!(calculated(MUL, 65_536, -32_768), Ok(MIN));
    assert_eq!(calculated(MUL, -65_536, -32_768), Err(3));
    assert_eq!(calculated(MUL, MIN, -1), Err(3));
    assert_eq!(calculated(MUL, MIN, MIN), Err(3));
    assert_eq!(calculated(MUL, MIN, 0), Ok(0));
}

#[test]
fn quotients_drop_the_fraction() {
    let quotients = [(7, 2, 3), (-7, 2, -3), (7, -2, -3), (-7, -2, 3), (1, MAX, 0), (-1, 2, 0)];
    for (left, right, quotient) in quotients {
        assert_eq!(calculated(DIV, left, right), Ok(quotient), "{left} {right}");
    }
    assert_eq!(calculated(DIV, MIN, 1), Ok(MIN));
    assert_eq!(calculated(DIV, MIN + 1, -1), Ok(MAX));
    assert_eq!(calculated(DIV, MIN, -1), Err(3));
    assert_eq!(calculated(DIV, MIN, MIN), Ok(1));
}

#[test]
fn remainders_have_the_sign_of_the_left() {
    let remainders = [(7, 2, 1), (-7, 2, -1), (7, -2, 1), (-7, -2, -1), (6, 3, 0), (-6, 3, 0)];
    for (left, right, remainder) in remainders {
        assert_eq!(calculated(MOD, left, right), Ok(remainder), "{left} {right}");
    }
    assert_eq!(calculated(MOD, MIN, -1), Ok(0));
    assert_eq!(calculated(MOD, MIN, MAX), Ok(-1));
    assert_eq!(calculated(MOD, MAX, MIN), Ok(MAX));
}

#[test]
fn a_zero_divisor_comes_before_the_range() {
    for left in [0, 1, -1, MIN, MAX] {
        assert_eq!(calculated(DIV, left, 0), Err(2));
        assert_eq!(calculated(MOD, left, 0), Err(2));
    }
}

#[test]
fn quotient_and_remainder_make_the_left() {
    let numbers = [MIN, MIN + 1, -50_000, -8, -7, -2, -1, 1, 2, 7, 8, 50_000, MAX - 1, MAX];
    for left in numbers {
        for right in numbers {
            if let Ok(quotient) = calculated(DIV, left, right) {
                let remainder = calculated(MOD, left, right).expect("the quotient is in range");
                let product = i64::from(right) * i64::from(quotient);
                assert_eq!(product + i64::from(remainder), i64::from(left));
                assert!(remainder.unsigned_abs() < right.unsigned_abs());
            }
        }
    }
}

#[test]
fn less() {
    let less = |left, right| line(Boolean, &[LT, num(left), num(right)]);
    assert_eq!(less(1, 2), "0 - 3 true -");
    assert_eq!(less(2, 2), "0 - 3 false -");
    assert_eq!(less(MAX, MIN), "0 - 3 false -");
    assert_eq!(less(MIN, MAX), "0 - 3 true -");
}
