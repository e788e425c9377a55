use super::{answer, answer_with, join};
use reference::record::{kind, Record};
use reference::shorthand::*;
use reference::tree::Type;

/// The answer for a record standing alone: 7 at itself if its own fields are
/// wrong, else something later.
fn alone(record: Record) -> String {
    answer(&[record])
}

fn refused(record: Record) -> bool {
    alone(record) == "no 7 0 -"
}

#[test]
fn unknown_kinds() {
    for unknown in (4..=7).chain(9..=15).chain(36..=255) {
        assert!(refused(bare(unknown)), "{unknown}");
    }
    for known in kind::ALL {
        assert!(!refused(bare(known)), "{known}");
    }
}

#[test]
fn unused_fields_are_zero() {
    let all_unused = [
        kind::CLOSE,
        kind::UNIT,
        kind::ADD,
        kind::MUL,
        kind::DIV,
        kind::MOD,
        kind::CONCAT,
        kind::EQ,
        kind::LT,
        kind::SEQ,
        kind::IF,
        kind::MATCH,
        kind::EXIT,
    ];
    for known in all_unused {
        assert!(refused(Record::new(known, 1, 0, 0)), "{known}");
        assert!(refused(Record::new(known, 0, 256, 0)), "{known}");
        assert!(refused(Record::new(known, 0, 0, -1)), "{known}");
    }
    for known in [kind::ENUM, kind::NUM, kind::STR, kind::LOCAL, kind::VAL] {
        assert!(refused(Record::new(known, 1, 0, 0)), "{known}");
    }
    for known in [kind::NUM, kind::BOOL] {
        assert!(refused(Record::new(known, 0, 1, 0)), "{known}");
    }
    for known in [
        kind::ENUM,
        kind::CASE,
        kind::DEF,
        kind::TYPE,
        kind::BOOL,
        kind::LOCAL,
        kind::VAL,
        kind::CALL,
    ] {
        assert!(refused(Record::new(known, 0, 0, 1)), "{known}");
        assert!(refused(Record::new(known, 0, 0, 1 << 24)), "{known}");
    }
}

#[test]
fn ranges_of_a() {
    for (known, last) in [
        (kind::CASE, 4),
        (kind::DEF, 4),
        (kind::TYPE, 4),
        (kind::BOOL, 1),
        (kind::CALL, 4),
        (kind::MAKE, 4),
        (kind::ARM, 4),
    ] {
        assert!(!refused(Record::new(known, last, 0, 0)), "{known}");
        assert!(refused(Record::new(known, last + 1, 0, 0)), "{known}");
        assert!(refused(Record::new(known, 255, 0, 0)), "{known}");
    }
}

#[test]
fn ranges_of_b() {
    for (known, last) in
        [(kind::ENUM, 31), (kind::CASE, 15), (kind::DEF, 63), (kind::CALL, 63), (kind::MAKE, 31)]
    {
        assert!(!refused(Record::new(known, 0, last, 0)), "{known}");
        assert!(refused(Record::new(known, 0, last + 1, 0)), "{known}");
        assert!(refused(Record::new(known, 0, 256, 0)), "{known}");
    }
    for known in [kind::STR, kind::LOCAL, kind::VAL, kind::ARM] {
        assert!(!refused(Record::new(known, 0, 65_535, 0)), "{known}");
    }
}

#[test]
fn ranges_of_c() {
    for (known, last) in [(kind::STR, 24), (kind::MAKE, 15), (kind::ARM, 15)] {
        assert!(!refused(Record::new(known, 0, 0, last)), "{known}");
        for wrong in [last + 1, 256, 65_536, 1 << 24, -1, i32::MIN] {
            assert!(refused(Record::new(known, 0, 0, wrong)), "{known}");
        }
    }
    for any in [i32::MIN, -1, i32::MAX] {
        assert!(!refused(num(any)));
    }
}

#[test]
fn type_uses_b_for_enums_only() {
    for plain in 0..=3 {
        assert!(refused(Record::new(kind::TYPE, plain, 1, 0)));
    }
    assert!(!refused(Record::new(kind::TYPE, 4, 31, 0)));
    assert!(refused(Record::new(kind::TYPE, 4, 32, 0)));
}

#[test]
fn names_of_an_arm_end_in_time() {
    assert!(!refused(arm(0, 65_535, 0)));
    assert!(!refused(arm(1, 65_535, 0)));
    assert!(refused(arm(2, 65_535, 0)));
    assert!(!refused(arm(4, 65_532, 0)));
    assert!(refused(arm(4, 65_533, 0)));
}

#[test]
fn lowest_record_counts_and_before_all_later_tests() {
    let unset = Record::new(kind::UNIT, 1, 0, 0);
    assert_eq!(answer(&[CLOSE, bare(9), unset]), "no 7 1 -");
    assert_eq!(answer(&[CLOSE, unset, bare(9)]), "no 7 1 -");
    // Behind records in the wrong place, a wrong number and a wrong type.
    let wrong = function(5, &[], Type::Unit, &[num(1)]);
    assert_eq!(answer(&join(&[&wrong, &[UNIT, bare(36)]])), "no 7 5 -");
}

#[test]
fn place_of_a_text_is_no_field_fault() {
    let records = body(Type::Text, &[text(65_535, 24)]);
    assert_eq!(answer_with(&records, b"short"), "no 9 2 -");
}
