//! Random cases: a form, a damaged copy or a form at a limit, with F, work, counter and buffer chosen near what the form asks for.

use crate::answers::{self, Call, Case, Opened, MAX_COUNTER, MAX_F, MIN_F, WORK_PER_F};
use crate::boundary;
use crate::generate::Maker;
use crate::random::Random;
use crate::records::{Bytes, Record};

const COUNTERS: &[u64] = &[0, 0, 0, 1, 8, 9, 41, 98, 99, 9998, 4294967294, MAX_COUNTER];

/// A call at random, those that walk more often.
pub fn some_call(random: &mut Random) -> Call {
    let calls = [Call::Name, Call::Order, Call::Whole, Call::Children, Call::Helper];
    calls[random.weighted(&[1, 5, 8, 3, 5])]
}

/// A call that takes a record.
pub fn walk_or_order(random: &mut Random) -> Call {
    random.pick(&[Call::Order, Call::Whole, Call::Whole, Call::Children, Call::Helper])
}

/// A counter, often before one of more digits.
pub fn some_counter(random: &mut Random) -> u64 {
    match random.one_in(2) {
        true => random.below(200) as u64,
        false => random.pick(COUNTERS),
    }
}

/// A case whose input is at most so long, and whose walk tests at most so many bytes.
pub fn some_case(maker: &mut Maker, call: Call, max_bytes: usize, max_cost: usize) -> Case {
    loop {
        let input = some_input(maker, call);
        if input.len() <= max_bytes && answers::walked(call, &input, 0).cost <= max_cost {
            return tuned(&mut maker.random, call, input);
        }
    }
}

/// An undamaged input of random size.
fn plain_input(maker: &mut Maker, call: Call) -> Bytes {
    let budget = [2, 6, 12, 24, 60][maker.random.weighted(&[3, 6, 6, 4, 1])];
    match call {
        Call::Name => (0..maker.random.below(3)).flat_map(|_| maker.name()).collect(),
        Call::Order => maker.some_assign(budget).bytes(),
        Call::Helper => maker.some_helper(budget).bytes(),
        Call::Whole | Call::Children => maker.some_form(budget).bytes(),
    }
}

/// An undamaged input, at times at a limit of the records.
pub fn whole_input(maker: &mut Maker, call: Call) -> Bytes {
    match maker.random.one_in(20) {
        true => boundary::input(&mut maker.random, call),
        false => plain_input(maker, call),
    }
}

fn some_input(maker: &mut Maker, call: Call) -> Bytes {
    match (call, maker.random.weighted(&[12, 4, 2])) {
        (Call::Name, 2) => vec![b'n'; 240 + maker.random.below(20)],
        (Call::Name, _) | (_, 0) => plain_input(maker, call),
        (_, 1) => {
            let input = plain_input(maker, call);
            damaged(&mut maker.random, input)
        }
        _ => {
            let input = boundary::input(&mut maker.random, call);
            match maker.random.one_in(4) {
                true => damaged(&mut maker.random, input),
                false => input,
            }
        }
    }
}

/// Cut off, a byte changed, inserted or taken away, or bytes left over.
pub fn damaged(random: &mut Random, mut input: Bytes) -> Bytes {
    let at = random.below(input.len());
    let byte = if random.one_in(2) { random.draw() as u8 } else { random.pick(b"\x00\x01\x02\x03\x40\x41BSHCFLAN") };
    match random.below(6) {
        0 => input.truncate(at),
        1 | 2 => input[at] = byte,
        3 => input.insert(at, byte),
        4 => {
            input.remove(at);
        }
        _ => input.push(byte),
    }
    input
}

/// A case of an input, with F, work memory, counter and buffer near what it asks for.
pub(crate) fn tuned(random: &mut Random, call: Call, input: Bytes) -> Case {
    let counter = if random.one_in(60) { MAX_COUNTER + 1 + random.below(3) as u64 } else { some_counter(random) };
    let f = some_f(random, call, &input, counter);
    let least = WORK_PER_F * f;
    let work = if random.one_in(60) { least.saturating_sub(1) } else { least + random.pick(&[0, 0, 1, 77]) };
    let mut case = Case { call, f, work, counter, buffer: usize::MAX, input };
    case.buffer = some_buffer(random, &case);
    case
}

/// Mostly the least F that the walk of this input fits in, one less, or more; at times at the limits of F or of the input.
pub fn some_f(random: &mut Random, call: Call, input: &[u8], counter: u64) -> u64 {
    let length = input.len() as u64;
    let peak = (answers::walked(call, input, counter).peak as u64).max(length);
    let f = match random.weighted(&[8, 3, 3, 1, 1]) {
        0 => peak + random.pick(&[1, 10, 100, 1000]),
        1 => peak,
        2 => length.max(peak.saturating_sub(1 + random.below(3) as u64)),
        3 => (length + 1).saturating_sub(random.below(3) as u64),
        _ => return random.pick(&[MIN_F - 1, MIN_F, MAX_F, MAX_F + 1]),
    };
    f.clamp(MIN_F, MAX_F)
}

/// As long as the result, shorter, or longer.
fn some_buffer(random: &mut Random, case: &Case) -> usize {
    let length = match (answers::answer(case), answers::read(case.call, &case.input)) {
        (_, Ok(Opened::Assign(assign))) => assign.bindings.len(),
        (Ok(answer), _) => answer.output.len(),
        _ => 0,
    };
    match random.weighted(&[4, 4, 1, 1]) {
        0 => length,
        1 => length + random.below(8),
        2 => length.saturating_sub(1),
        _ => random.below(length + 1),
    }
}
