//! Reading cases: an input, the record that it must be, F, and what the reader says to it.

mod fields;
pub(crate) mod limits;
mod mods;
mod series;

pub use series::Series;
pub(crate) use series::{at_limits, marks, noise, with_mods};

use crate::reader::{self, Refusal};
use crate::records::Bytes;
use crate::stored::two_bytes;
use crate::vectors::hex;
use std::collections::HashSet;

/// The record that an input must be. Its number stands in stored cases.
#[derive(Clone, Copy, Debug, PartialEq, Eq, Hash)]
pub enum Asked {
    Form = 0,
    Helper = 1,
    Assign = 2,
}

pub const ASKED: [Asked; 3] = [Asked::Form, Asked::Helper, Asked::Assign];

impl Asked {
    fn word(self) -> &'static str {
        match self {
            Asked::Form => "form",
            Asked::Helper => "helper",
            Asked::Assign => "assign",
        }
    }
}

#[derive(Clone, Debug, PartialEq, Eq)]
pub struct Reading {
    pub asked: Asked,
    pub f: u64,
    pub input: Bytes,
}

impl Reading {
    /// The refusal, 2, 3 or 4; number and place are 0 if the input is accepted.
    pub fn refusal(&self) -> Refusal {
        if self.input.len() as u64 > self.f {
            return Refusal { number: 3, place: 0 };
        }
        let read = match self.asked {
            Asked::Form => reader::form(&self.input).map(drop),
            Asked::Helper => reader::helper(&self.input).map(drop),
            Asked::Assign => reader::assign(&self.input).map(drop),
        };
        read.err().unwrap_or(Refusal { number: 0, place: 0 })
    }

    /// What the answer depends on: F counts only where the input is longer.
    fn told_apart(&self) -> (Asked, Bytes, bool) {
        (self.asked, self.input.clone(), self.input.len() as u64 > self.f)
    }

    /// `kind F input-hex -> number place`.
    pub fn line(&self) -> String {
        let Refusal { number, place } = self.refusal();
        format!("{} {} {} -> {number} {place}", self.asked.word(), self.f, hex(&self.input))
    }

    /// Kind and number in a byte each; F, place and the input's length in two; then the input.
    pub fn stored(&self) -> Bytes {
        let Refusal { number, place } = self.refusal();
        let mut bytes = vec![self.asked as u8, number as u8];
        for field in [self.f as usize, place as usize, self.input.len()] {
            bytes.extend(two_bytes(field));
        }
        bytes.extend(&self.input);
        bytes
    }
}

/// The cases of a short series that differ, as they are stored.
pub fn store(seed: u64, count: usize) -> Bytes {
    let mut seen = HashSet::new();
    let distinct = Series::short(seed).filter(|reading| seen.insert(reading.told_apart()));
    distinct.take(count).flat_map(|reading| reading.stored()).collect()
}
