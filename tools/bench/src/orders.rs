//! The answers of the proved call Order against the oracle's: Chialisp's `toposort_assign_bindings`, with the refusals that it lacks.

use crate::library::{self, Answered};
use oracle::answers::{self, Answer, Case, MAX_F, WORK_PER_F};
use oracle::orders::Series;
use oracle::vectors;

/// What the result buffer is filled with before the call.
const FILL: u8 = 7;
/// One case in so many has too little work memory.
const SHORT_WORK: usize = 64;

/// So many cases: assigns of every shape, damaged ones, and every limit beside the input.
pub fn agree(seed: u64, count: usize) -> Result<(), String> {
    let mut work = vec![0; (WORK_PER_F * MAX_F) as usize];
    let mut by_number = [0; 9];
    for (index, mut case) in Series::full(seed).take(count).enumerate() {
        if index % SHORT_WORK == 0 {
            case.work = (WORK_PER_F * case.f).saturating_sub(1).min(case.work);
        }
        let wanted = answers::answer(&case)?;
        let mut result = vec![FILL; case.buffer];
        let got = library::call(&case, &mut work[..case.work as usize], &case.input, &mut result);
        if !same(&case, &got, &result, &wanted) {
            let told = format!("{got:?}, buffer {}", vectors::hex(&result));
            return Err(format!("the library gives {told}; the rounds are {}: {}", wanted.rounds, vectors::line(&case, &wanted)));
        }
        by_number[wanted.number as usize] += 1;
    }
    println!("{count} assigns agree: {} ordered, {} deadlocked", by_number[0], by_number[5]);
    println!(
        "refused: {} of number 1, {} of 2, {} of 3, {} of 4, {} of 8",
        by_number[1], by_number[2], by_number[3], by_number[4], by_number[8]
    );
    Ok(())
}

/// Number, place, counter, rounds and length, the bytes written (of a deadlock as a set), and no byte past them changed.
fn same(case: &Case, got: &Answered, result: &[u8], wanted: &Answer) -> bool {
    let length = wanted.output.len();
    (got.number, got.place, got.counter, got.len) == (wanted.number, wanted.place, case.counter, length as u64)
        && got.rounds == wanted.rounds
        && same_bytes(&result[..length], wanted)
        && result[length..].iter().all(|byte| *byte == FILL)
}

fn same_bytes(got: &[u8], wanted: &Answer) -> bool {
    let sorted = |bytes: &[u8]| {
        let mut bytes = bytes.to_vec();
        bytes.sort();
        bytes
    };
    match wanted.number {
        5 => sorted(got) == sorted(&wanted.output),
        _ => got == wanted.output,
    }
}
