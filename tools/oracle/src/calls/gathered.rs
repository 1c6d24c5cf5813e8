//! Cases as they are gathered: with F enough, and with F at what the walk passes last.

use super::Case;
use crate::answers::{self, Call, MAX_COUNTER, MAX_F, MIN_F, WORK_PER_F};
use crate::records::Bytes;

/// Counters of one, two and ten digits, before one of more, and the limit.
pub const COUNTERS: &[u64] = &[0, 0, 8, 9, 41, 99, 999999999, MAX_COUNTER - 1, MAX_COUNTER];
/// Where the L of a case start; the last ones pass to 0.
pub const LOCS: &[u32] = &[0, 0, 0, 250, 65530, 16909060, u32::MAX - 9];

/// The least F that an input may be read with.
pub fn least_f(input: &[u8]) -> usize {
    input.len().max(MIN_F as usize)
}

/// What passes F on the way of a walk, one after the other, where F is always just what passed it before.
pub fn rises(call: Call, input: &[u8], counter: u64) -> Vec<usize> {
    let mut f = least_f(input);
    let mut all = Vec::new();
    loop {
        let peak = answers::walked_within(call, input, counter, f).peak;
        if peak <= f || peak > MAX_F as usize {
            return all;
        }
        all.push(peak);
        f = peak;
    }
}

/// F that is enough, or that a walk ends at for another reason.
fn enough(call: Call, input: &[u8], counter: u64) -> usize {
    rises(call, input, counter).last().copied().unwrap_or(0).max(least_f(input))
}

/// Cases, in the sequence in which they were gathered.
#[derive(Default)]
pub struct Gathered(pub Vec<Case>);

impl Gathered {
    /// A case with just the work memory that F asks for, and a result buffer of F bytes.
    pub fn push(&mut self, about: &str, call: Call, f: usize, counter: u64, input: Bytes) {
        let within = (f as u64).clamp(MIN_F, MAX_F);
        let (work, buffer) = (WORK_PER_F * within, within as usize);
        self.given(about, answers::Case { call, f: f as u64, work, counter, buffer, input });
    }

    /// A case of which everything is given.
    pub fn given(&mut self, about: &str, call: answers::Case) {
        self.0.push(Case { about: about.to_string(), call });
    }

    /// A case in which F is enough.
    pub fn plain(&mut self, about: &str, call: Call, counter: u64, input: Bytes) {
        let f = enough(call, &input, counter);
        self.push(about, call, f, counter, input);
    }

    /// With F at what passes it last, and one below.
    pub fn tight(&mut self, about: &str, call: Call, counter: u64, input: Bytes) {
        let f = enough(call, &input, counter);
        if f > least_f(&input) {
            self.push(about, call, f - 1, counter, input.clone());
        }
        self.push(about, call, f, counter, input);
    }

    /// F enough, with a result buffer that is just long enough, one byte short, and empty.
    pub fn buffers(&mut self, about: &str, call: Call, counter: u64, input: Bytes) {
        let f = enough(call, &input, counter) as u64;
        let case = answers::Case { call, f, work: WORK_PER_F * f, counter, buffer: f as usize, input };
        let length = answers::answer(&case).map_or(0, |answer| answer.output.len());
        for (what, buffer) in [("exact", length), ("one short", length.saturating_sub(1)), ("none", 0)] {
            self.given(&format!("{about}, buffer {what}"), answers::Case { buffer, ..case.clone() });
        }
    }
}
