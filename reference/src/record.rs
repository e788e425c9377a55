//! Records: eight bytes each, taken apart into four fields.

/// Bytes of one record.
pub const SIZE: usize = 8;

#[derive(Clone, Copy, Debug, PartialEq, Eq)]
pub struct Record {
    pub kind: u8,
    pub a: u8,
    pub b: u16,
    pub c: i32,
}

impl Record {
    pub const fn new(kind: u8, a: u8, b: u16, c: i32) -> Self {
        Record { kind, a, b, c }
    }

    pub fn from_bytes(bytes: [u8; SIZE]) -> Self {
        let [kind, a, b0, b1, c0, c1, c2, c3] = bytes;
        Record { kind, a, b: u16::from_le_bytes([b0, b1]), c: i32::from_le_bytes([c0, c1, c2, c3]) }
    }

    pub fn to_bytes(self) -> [u8; SIZE] {
        let [b0, b1] = self.b.to_le_bytes();
        let [c0, c1, c2, c3] = self.c.to_le_bytes();
        [self.kind, self.a, b0, b1, c0, c1, c2, c3]
    }
}

/// The kinds by their numbers.
pub mod kind {
    pub const CLOSE: u8 = 0;
    pub const ENUM: u8 = 1;
    pub const CASE: u8 = 2;
    pub const DEF: u8 = 3;
    pub const TYPE: u8 = 8;
    pub const UNIT: u8 = 16;
    pub const NUM: u8 = 17;
    pub const BOOL: u8 = 18;
    pub const STR: u8 = 19;
    pub const LOCAL: u8 = 20;
    pub const ADD: u8 = 21;
    pub const MUL: u8 = 22;
    pub const DIV: u8 = 23;
    pub const MOD: u8 = 24;
    pub const CONCAT: u8 = 25;
    pub const EQ: u8 = 26;
    pub const LT: u8 = 27;
    pub const SEQ: u8 = 28;
    pub const IF: u8 = 29;
    pub const VAL: u8 = 30;
    pub const CALL: u8 = 31;
    pub const MAKE: u8 = 32;
    pub const MATCH: u8 = 33;
    pub const ARM: u8 = 34;
    pub const EXIT: u8 = 35;

    /// Every kind there is.
    pub const ALL: [u8; 25] = [
        CLOSE, ENUM, CASE, DEF, TYPE, UNIT, NUM, BOOL, STR, LOCAL, ADD, MUL, DIV, MOD, CONCAT, EQ,
        LT, SEQ, IF, VAL, CALL, MAKE, MATCH, ARM, EXIT,
    ];
}

#[cfg(test)]
mod tests {
    use super::*;

    #[test]
    fn low_bytes_come_first() {
        let record = Record::from_bytes([17, 1, 2, 3, 0x50, 0xC3, 0, 0]);
        assert_eq!(record, Record::new(17, 1, 0x0302, 50_000));
        assert_eq!(record.to_bytes(), [17, 1, 2, 3, 0x50, 0xC3, 0, 0]);
    }

    #[test]
    fn c_is_signed() {
        assert_eq!(Record::from_bytes([17, 0, 0, 0, 255, 255, 255, 255]).c, -1);
    }
}
