//! What a check answers.

use std::error::Error;
use std::fmt;

/// The stage of checking that turned an image down.
#[derive(Clone, Copy, Debug, PartialEq, Eq)]
pub enum Layer {
    /// Numbers 2 to 6: the header and the length.
    Image,
    /// Numbers 7 to 9: the records and how they stand together.
    Table,
    /// Numbers 10 to 13.
    Types,
}

/// Why an image is no card.
#[derive(Clone, Copy, Debug, PartialEq, Eq)]
pub struct Refusal {
    pub number: u8,
    pub layer: Layer,
    pub record: Option<usize>,
    pub group: Option<usize>,
}

impl Refusal {
    /// A refusal of the header or the length, which names no record.
    pub fn image(number: u8) -> Self {
        Refusal { number, layer: Layer::Image, record: None, group: None }
    }

    /// 7: an unknown kind or a field outside its range.
    pub fn bad_field(record: usize) -> Self {
        Refusal { number: 7, layer: Layer::Table, record: Some(record), group: None }
    }

    /// 8: a record in the wrong place, or none where one must come.
    pub fn misplaced(record: usize, group: Option<usize>) -> Self {
        Refusal { number: 8, layer: Layer::Table, record: Some(record), group }
    }

    /// 9: a number out of order, or something named that isn't there.
    pub fn bad_name(record: usize) -> Self {
        Refusal { number: 9, layer: Layer::Table, record: Some(record), group: None }
    }

    /// 10: a name that nothing binds.
    pub fn unbound(record: usize) -> Self {
        Self::types(10, record)
    }

    /// 11: a wrong type.
    pub fn wrong_type(record: usize) -> Self {
        Self::types(11, record)
    }

    /// 12: a wrong count of parts.
    pub fn wrong_count(record: usize) -> Self {
        Self::types(12, record)
    }

    /// 13: arms that don't fit the cases of their enum.
    pub fn wrong_arms(record: usize) -> Self {
        Self::types(13, record)
    }

    fn types(number: u8, record: usize) -> Self {
        Refusal { number, layer: Layer::Types, record: Some(record), group: None }
    }
}

/// The answer of a check.
#[derive(Clone, Copy, Debug, PartialEq, Eq)]
pub enum Verdict {
    Accepted { enums: usize, functions: usize },
    Refused(Refusal),
}

impl fmt::Display for Verdict {
    fn fmt(&self, out: &mut fmt::Formatter<'_>) -> fmt::Result {
        match self {
            Verdict::Accepted { enums, functions } => write!(out, "ok {enums} {functions}"),
            Verdict::Refused(refusal) => write!(out, "{refusal}"),
        }
    }
}

impl fmt::Display for Refusal {
    fn fmt(&self, out: &mut fmt::Formatter<'_>) -> fmt::Result {
        let record = or_dash(self.record);
        let group = or_dash(self.group);
        write!(out, "no {} {record} {group}", self.number)
    }
}

impl Error for Refusal {}

fn or_dash(place: Option<usize>) -> String {
    place.map_or_else(|| "-".to_string(), |place| place.to_string())
}

#[cfg(test)]
mod tests {
    use super::*;

    #[test]
    fn prints_one_line() {
        assert_eq!(Verdict::Accepted { enums: 1, functions: 12 }.to_string(), "ok 1 12");
        assert_eq!(Verdict::Refused(Refusal::image(6)).to_string(), "no 6 - -");
        assert_eq!(Verdict::Refused(Refusal::bad_field(0)).to_string(), "no 7 0 -");
        assert_eq!(Verdict::Refused(Refusal::misplaced(4, Some(0))).to_string(), "no 8 4 0");
        assert_eq!(Verdict::Refused(Refusal::misplaced(4, None)).to_string(), "no 8 4 -");
    }

    #[test]
    fn layers_go_by_number() {
        assert_eq!(Refusal::image(2).layer, Layer::Image);
        assert_eq!(Refusal::bad_name(2).layer, Layer::Table);
        assert_eq!(Refusal::wrong_arms(2).layer, Layer::Types);
    }
}
