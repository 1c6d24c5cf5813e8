//! What a case gives the call Order beside its input: F, the counter, the length of the result buffer.

use crate::answers::{Call, Case, MAX_COUNTER, MAX_F, MIN_F, WORK_PER_F};
use crate::random::Random;
use crate::records::{Bytes, Let, Record};
use crate::sample;

/// The longest result buffer.
const MOST_BUFFER: usize = 255;

fn case(f: u64, counter: u64, buffer: usize, input: Bytes) -> Case {
    Case { call: Call::Order, f, work: WORK_PER_F * MAX_F, counter, buffer: buffer.min(MOST_BUFFER), input }
}

fn enough(input: &[u8]) -> u64 {
    (input.len() as u64).clamp(MIN_F, MAX_F)
}

/// A case that is refused for nothing but its input.
pub fn plain(random: &mut Random, input: Bytes, count: usize) -> Case {
    let f = random.pick(&[enough(&input), enough(&input), (enough(&input) + 1).min(MAX_F), MAX_F]);
    let buffer = count + random.pick(&[0, 0, 1, 2, 7]);
    case(f, sample::some_counter(random), buffer, input)
}

/// A case near a limit of F, of the counter or of the buffer.
pub fn tight(random: &mut Random, input: Bytes, count: usize) -> Case {
    let chosen = plain(random, input, count);
    let length = chosen.input.len() as u64;
    match random.below(5) {
        0 => Case { f: random.pick(&[MIN_F - 1, MIN_F, MAX_F, MAX_F + 1]), ..chosen },
        1 => Case { f: length.saturating_sub(1).clamp(MIN_F, MAX_F), ..chosen },
        2 => Case { counter: MAX_COUNTER - 1 + random.below(4) as u64, ..chosen },
        3 => Case { buffer: count.saturating_sub(1), ..chosen },
        _ => Case { buffer: random.below(count + 1), ..chosen },
    }
}

/// An assign with every limit of F, of the counter and of the buffer met and passed.
pub fn all_tight(assign: &Let) -> Vec<Case> {
    let (input, count) = (assign.bytes(), assign.bindings.len());
    let length = input.len() as u64;
    let f = enough(&input);
    let mut cases = Vec::new();
    for f in [0, MIN_F - 1, MIN_F, length - 1, length, length + 1, MAX_F, MAX_F + 1, 65535] {
        cases.push(case(f, 0, count, input.clone()));
    }
    for counter in [0, MAX_COUNTER, MAX_COUNTER + 1, u64::MAX] {
        cases.push(case(f, counter, count, input.clone()));
    }
    for buffer in [0, count.saturating_sub(1), count, count + 1, MOST_BUFFER] {
        cases.push(case(f, 1, buffer, input.clone()));
    }
    cases.push(case(MIN_F - 1, MAX_COUNTER + 1, 0, input.clone()));
    cases.push(case(f, 1, 0, [&input[..], b"\x00"].concat()));
    cases
}
