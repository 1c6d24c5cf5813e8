//! The answers of the proved call Page against the oracle's, which lays trees out.

use crate::guarded::Guarded;
use crate::library;
use oracle::answers::{MAX_F, WORK_PER_F};
use oracle::pages::{self, Answer, Case, Series};
use oracle::vectors;

/// What the result buffer is filled with before the call.
const FILL: u8 = 7;
/// The longest buffer that is lent: a case that asks for more gets this one.
const MOST_BUFFER: usize = 1 << 20;

/// So many forms, whole and damaged. Work memory and result buffer each end at a page that may not be touched.
pub fn agree(seed: u64, count: usize) -> Result<(), String> {
    let mut work = Guarded::filled((WORK_PER_F * MAX_F) as usize, 1)?;
    let mut buffer = Guarded::filled(MOST_BUFFER, FILL)?;
    let mut by_number = [0; 10];
    for mut case in Series::full(seed).take(count) {
        case.buffer = case.buffer.min(MOST_BUFFER);
        let wanted = pages::answer(&case);
        let result = buffer.last(case.buffer);
        result.fill(FILL);
        let got = library::page(case.f as usize, work.last(case.work as usize), &case.input, result);
        if !same(&got, result, &wanted) {
            return Err(format!("the library gives {got:?}, not {wanted:?}: {}", told(&case)));
        }
        by_number[wanted.refusal.number as usize] += 1;
    }
    println!("{count} pages agree: {} laid out", by_number[0]);
    println!("refused: {} of number 1, {} of 2, {} of 3, {} of 9", by_number[1], by_number[2], by_number[3], by_number[9]);
    Ok(())
}

/// Number, place and length, no counter and no rounds, the bytes written, and no byte past them changed.
fn same(got: &library::Answered, result: &[u8], wanted: &Answer) -> bool {
    let length = wanted.output.len();
    (got.number, got.place, got.len) == (wanted.refusal.number, wanted.refusal.place, length as u64)
        && (got.counter, got.rounds) == (0, 0)
        && result[..length] == wanted.output
        && result[length..].iter().all(|byte| *byte == FILL)
}

fn told(case: &Case) -> String {
    format!("F {}, work {}, buffer {}, input {}", case.f, case.work, case.buffer, vectors::hex(&case.input))
}
