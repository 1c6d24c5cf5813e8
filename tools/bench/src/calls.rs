//! The answers of the proved calls against the oracle's: Chialisp's Rust for form, counter and deadlock, the model for other refusals.

use crate::guarded::Guarded;
use crate::library::{self, Answered};
use oracle::answers::{self, Answer, Call, Case, MAX_F, WORK_PER_F};
use oracle::calls::Series;
use oracle::generate::Maker;
use oracle::{sample, vectors};

/// What the memory for results is filled with.
const FILL: u8 = 0xA5;
/// What stands in work memory before the first call; later calls find what earlier ones left.
const DIRT: u8 = 0x53;
/// How many bytes before a result buffer are looked at.
const BEFORE: usize = 64;
/// The longest result buffer that is lent.
const MOST_BUFFER: usize = 2 * MAX_F as usize;

/// So many cases of Whole form, Children only and Single helper; all directed ones before the random ones, if these are asked for.
pub fn agree(seed: u64, count: usize, directed: bool) -> Result<(), String> {
    let series = if directed { Series::full(seed) } else { Series::unending(seed) };
    compared(series.map(|case| case.call).take(count))
}

/// So many cases of Name.
pub fn names(seed: u64, count: usize) -> Result<(), String> {
    let mut maker = Maker::seeded(seed);
    compared((0..count).map(|_| sample::some_case(&mut maker, Call::Name, usize::MAX, usize::MAX)))
}

/// Every case must agree. Input, work memory and result buffer each end where memory ends.
fn compared(cases: impl Iterator<Item = Case>) -> Result<(), String> {
    let mut memory = Memory {
        work: Guarded::filled((WORK_PER_F * MAX_F) as usize + BEFORE, DIRT)?,
        input: Guarded::filled(MOST_BUFFER, FILL)?,
        result: Guarded::filled(MOST_BUFFER + BEFORE, FILL)?,
    };
    let mut by_number = [0; 9];
    for mut case in cases {
        case.buffer = case.buffer.min(MOST_BUFFER);
        let wanted = answers::answer(&case)?;
        if let Some(why) = memory.differs(&case, &wanted) {
            return Err(format!("the library gives {why}: {}", vectors::line(&case, &wanted)));
        }
        by_number[wanted.number as usize] += 1;
    }
    let [accepted, refused @ ..] = by_number;
    let refused: Vec<String> = refused.iter().zip(1..).map(|(count, number)| format!("{count} of number {number}")).collect();
    println!("{} cases agree: {accepted} accepted; refused: {}", by_number.iter().sum::<usize>(), refused.join(", "));
    Ok(())
}

/// What calls work in.
struct Memory {
    work: Guarded,
    input: Guarded,
    result: Guarded,
}

impl Memory {
    /// What the library answers, if it is not what is wanted: number, place, counter, rounds, length, every byte of the buffer, and
    /// that the input and the bytes before the buffer stay.
    fn differs(&mut self, case: &Case, wanted: &Answer) -> Option<String> {
        let length = wanted.output.len();
        let input = self.input.last(case.input.len());
        input.copy_from_slice(&case.input);
        let area = self.result.last(case.buffer + BEFORE);
        area.fill(FILL);
        let (before, result) = area.split_at_mut(BEFORE);
        let got = library::call(case, self.work.last(case.work as usize), input, result);
        let answered =
            Answered { number: wanted.number, place: wanted.place, counter: wanted.counter, rounds: 0, len: length as u64 };
        let as_found = |bytes: &[u8]| bytes.iter().all(|byte| *byte == FILL);
        let bytes = result[..length] == wanted.output && as_found(&result[length..]) && as_found(before);
        match (got == answered, bytes, *input == case.input) {
            (true, true, true) => None,
            (false, _, _) => Some(format!("{got:?}")),
            (_, false, _) => Some(format!("the right answer, and the buffer {}", vectors::hex(result))),
            _ => Some("the right answer, and changes the input".to_string()),
        }
    }
}
