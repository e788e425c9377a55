//! Counts of answers by their number.

use std::collections::BTreeMap;
use std::fmt;

use crate::verdict::Verdict;

#[derive(Default)]
pub struct Tally {
    accepted: usize,
    refused: BTreeMap<u8, usize>,
}

impl Tally {
    pub fn add(&mut self, verdict: &Verdict) {
        match verdict {
            Verdict::Accepted { .. } => self.accepted += 1,
            Verdict::Refused(refusal) => *self.refused.entry(refusal.number).or_default() += 1,
        }
    }
}

impl fmt::Display for Tally {
    fn fmt(&self, out: &mut fmt::Formatter<'_>) -> fmt::Result {
        write!(out, "ok:{}", self.accepted)?;
        for (number, count) in &self.refused {
            write!(out, " {number}:{count}")?;
        }
        Ok(())
    }
}
