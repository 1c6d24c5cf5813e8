//! The call Page, by trees, and cases of it.

mod lines;
mod series;

pub use lines::lines;
pub use series::Series;

use crate::answers::{Checked, MAX_F, MIN_F, WORK_PER_F};
use crate::reader::{self, Refusal};
use crate::records::Bytes;
use crate::stored::{distinct, four_bytes, one_byte, two_bytes};

/// The bytes of a line, its 0A among them.
pub const LINE: usize = 73;

/// What the call is given: F, how long work memory and the buffer are, and the input.
#[derive(Clone, Debug, PartialEq, Eq)]
pub struct Case {
    pub f: u64,
    pub work: u64,
    pub buffer: usize,
    pub input: Bytes,
}

/// What it answers: the refusal (number and place 0 for none), and what it writes.
#[derive(Clone, Debug, PartialEq, Eq)]
pub struct Answer {
    pub refusal: Refusal,
    pub output: Bytes,
}

fn refused(number: u64, place: u64) -> Answer {
    Answer { refusal: Refusal { number, place }, output: Bytes::new() }
}

/// 1, 3 by length, 2 or 3 by reading, 9; then the lines.
pub fn answer(case: &Case) -> Answer {
    if !(MIN_F..=MAX_F).contains(&case.f) || case.work < WORK_PER_F * case.f {
        return refused(1, 0);
    }
    if case.input.len() as u64 > case.f {
        return refused(3, 0);
    }
    let form = match reader::form_with_mods(&case.input) {
        Ok(form) => form,
        Err(Refusal { number, place }) => return refused(number, place),
    };
    let lines = lines(&form);
    if case.buffer < LINE * lines.len() {
        return refused(9, 0);
    }
    Answer { refusal: Refusal { number: 0, place: 0 }, output: lines.concat() }
}

/// F in two bytes, work memory and buffer in four each, the number in one, the place in four; how many bytes are written in
/// four, the length of the input in two; then the bytes written, and the input.
fn stored(case: &Case) -> Checked<Bytes> {
    let Answer { refusal, output } = answer(case);
    let mut bytes = two_bytes(case.f as usize).to_vec();
    bytes.extend(four_bytes(case.work));
    bytes.extend(four_bytes(case.buffer as u64));
    bytes.push(one_byte(refusal.number as usize));
    bytes.extend(four_bytes(refusal.place));
    bytes.extend(four_bytes(output.len() as u64));
    bytes.extend(two_bytes(case.input.len()));
    bytes.extend(&output);
    bytes.extend(&case.input);
    Ok(bytes)
}

/// The cases of a series that differ, as they are stored.
pub fn store(series: Series, count: usize) -> Checked<Bytes> {
    distinct(series, count, stored)
}
