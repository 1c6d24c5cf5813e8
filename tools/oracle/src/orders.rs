//! Cases of the call Order: an assign or a damaged one, F, the counter, the length of the result buffer, and the answer.

mod bodies;
mod heads;
mod series;
pub mod shapes;

pub use series::Series;

use crate::answers::{self, Case, Checked};
use crate::records::Bytes;
use crate::stored::{distinct, one_byte, two_bytes};

/// F in two bytes, the counter in eight, the length of the buffer and the number in one each, the place in four, the rounds and how
/// many bytes are written in one each, the length of the input in two; then the bytes written, and the input.
pub fn stored(case: &Case) -> Checked<Bytes> {
    let answer = answers::answer(case)?;
    let mut bytes = two_bytes(case.f as usize).to_vec();
    bytes.extend(case.counter.to_be_bytes());
    bytes.extend([one_byte(case.buffer), one_byte(answer.number as usize)]);
    bytes.extend(u32::try_from(answer.place).expect("a place of four bytes").to_be_bytes());
    bytes.extend([one_byte(answer.rounds as usize), one_byte(answer.output.len())]);
    bytes.extend(two_bytes(case.input.len()));
    bytes.extend(&answer.output);
    bytes.extend(&case.input);
    Ok(bytes)
}

/// The cases of a series that differ, as they are stored.
pub fn store(series: Series, count: usize) -> Checked<Bytes> {
    distinct(series, count, stored)
}
