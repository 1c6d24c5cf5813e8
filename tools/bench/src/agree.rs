//! The answers of the proved reader and of the plain one against the oracle's own reader.

use crate::library::{self, Open};
use crate::plain;
use oracle::reader::Refusal;
use oracle::reads::{Reading, Series};

/// So many reading cases: at the limits, cut off, changed, damaged, random.
pub fn agree(seed: u64, count: usize) -> Result<(), String> {
    let mut by_number = [0; 5];
    for reading in Series::full(seed).take(count) {
        let wanted = reading.refusal();
        for (who, got) in [("library", open(&reading, library::open)), ("plain reader", open(&reading, plain::open))] {
            if got != wanted {
                return Err(format!("the {who} gives {} {}: {}", got.number, got.place, reading.line()));
            }
        }
        by_number[wanted.number as usize] += 1;
    }
    let [accepted, _, malformed, past_limit, a_mod] = by_number;
    println!("{count} inputs agree: {accepted} accepted, {malformed} of number 2, {past_limit} of 3, {a_mod} of 4");
    Ok(())
}

fn open(reading: &Reading, open: Open) -> Refusal {
    open(reading.asked, &reading.input, reading.f as usize)
}
