//! Series of reading cases: all at the limits, small records cut and changed, then random ones without end.

use super::limits::{Inputs, Places};
use super::{fields, limits, mods, Asked, Reading, ASKED};
use crate::answers::{MAX_F, MIN_F};
use crate::boundary;
use crate::generate::Maker;
use crate::random::Random;
use crate::records::{Bytes, Record};
use crate::sample;
use std::collections::VecDeque;

/// Bytes that mean something in many places.
const TELLING: &[u8] = b"\x00\x01\x02\x03\x04\x40\x41\x7f\x80\xffBSHCFLQVMNIADRX";
/// The most bytes of a random input that is cut and changed at each byte, or that stands in a short series.
const SMALL: usize = 100;

pub struct Series {
    maker: Maker,
    waiting: VecDeque<Reading>,
    full: bool,
}

impl Iterator for Series {
    type Item = Reading;

    fn next(&mut self) -> Option<Reading> {
        while self.waiting.is_empty() {
            self.more();
        }
        self.waiting.pop_front()
    }
}

impl Series {
    /// With every kind of input at every limit, and random inputs of any length, cut and changed too.
    pub fn full(seed: u64) -> Series {
        Series::seeded(seed, Places::all(), &[MIN_F, MIN_F + 1, 255, MAX_F - 1, MAX_F])
    }

    /// With one kind of input by turns at most limits, and short random inputs.
    pub fn short(seed: u64) -> Series {
        Series::seeded(seed, Places::by_turns(), &[MIN_F, MIN_F + 1])
    }

    fn seeded(seed: u64, mut places: Places, all_f: &[u64]) -> Series {
        let (maker, waiting, full) = (Maker::seeded(seed), limits::lengths(all_f).into(), places.is_all());
        let mut series = Series { maker, waiting, full };
        for (asked, input) in limited(&mut places) {
            limits::shortest(asked, &input).into_iter().for_each(|beginning| series.wait(asked, beginning));
            series.wait(asked, input);
        }
        let single =
            [fields::integers(), fields::choices(), fields::lengths(&mut places), fields::marks(), mods::all(&mut places)];
        for (asked, input) in single.concat() {
            series.wait(asked, input);
        }
        for (asked, input) in fields::small() {
            series.wait_around(asked, &input);
        }
        series
    }

    fn wait(&mut self, asked: Asked, input: Bytes) {
        let f = enough_f(&mut self.maker.random, input.len() as u64);
        self.waiting.push_back(Reading { asked, f, input });
    }

    /// An input, each of its beginnings, a byte left over, and each of its bytes changed.
    fn wait_around(&mut self, asked: Asked, input: &[u8]) {
        self.wait(asked, input.to_vec());
        for length in 0..input.len() {
            self.wait(asked, input[..length].to_vec());
        }
        let byte = self.maker.random.pick(TELLING);
        self.wait(asked, [input, &[byte]].concat());
        for place in 0..input.len() {
            let mut changed = input.to_vec();
            changed[place] = other(&mut self.maker.random, input[place]);
            self.wait(asked, changed);
        }
    }

    /// The next random cases.
    fn more(&mut self) {
        let asked = self.maker.random.pick(&ASKED);
        let input = match self.maker.random.weighted(&[6, 2, 2, 3, 3]) {
            0 => plain(&mut self.maker, asked),
            1 => boundary::of_kind(&mut self.maker.random, asked),
            2 => noise(&mut self.maker.random),
            3 => marks(&mut self.maker.random),
            _ => {
                let input = plain(&mut self.maker, asked);
                sample::damaged(&mut self.maker.random, input)
            }
        };
        match (self.full, input.len() <= SMALL) {
            (false, false) => {}
            (true, true) if self.maker.random.one_in(30) => self.wait_around(asked, &input),
            _ if self.maker.random.one_in(12) => self.wait_longer(asked, input),
            _ => self.wait(asked, input),
        }
    }

    /// An input with the largest F that it is longer than, if there is one.
    fn wait_longer(&mut self, asked: Asked, input: Bytes) {
        let f = (input.len() as u64).saturating_sub(1).clamp(MIN_F, MAX_F);
        self.waiting.push_back(Reading { asked, f, input });
    }
}

/// Which of several inputs of one sort are taken.
fn places(full: bool) -> Places {
    match full {
        true => Places::all(),
        false => Places::by_turns(),
    }
}

/// Inputs at the limits of the records and past them; of each sort one, or all.
pub(crate) fn at_limits(full: bool) -> Inputs {
    limited(&mut places(full))
}

/// Inputs with BM in and around assigns; of each sort one, or all.
pub(crate) fn with_mods(full: bool) -> Inputs {
    mods::all(&mut places(full))
}

fn limited(places: &mut Places) -> Inputs {
    let nesting = [limits::levels(places), limits::sequentials(places), limits::lambdas(places)];
    [nesting.concat(), limits::counts(), limits::conses()].concat()
}

/// An F that the input is not longer than, if there is one.
fn enough_f(random: &mut Random, length: u64) -> u64 {
    random.pick(&[length, length + 1, MAX_F]).clamp(MIN_F, MAX_F)
}

fn other(random: &mut Random, byte: u8) -> u8 {
    match random.below(3) {
        0 => byte.wrapping_add(1),
        1 => random.pick(TELLING),
        _ => random.draw() as u8,
    }
}

fn plain(maker: &mut Maker, asked: Asked) -> Bytes {
    let budget = maker.random.pick(&[1, 2, 4, 8, 16, 60]);
    match asked {
        Asked::Form => maker.some_form(budget).bytes(),
        Asked::Helper => maker.some_helper(budget).bytes(),
        Asked::Assign => maker.some_assign(budget).bytes(),
    }
}

/// Random bytes.
pub(crate) fn noise(random: &mut Random) -> Bytes {
    (0..random.below(80)).map(|_| if random.one_in(2) { random.pick(TELLING) } else { random.draw() as u8 }).collect()
}

/// Marks with bytes of zero between them, as many as their fields often have.
pub(crate) fn marks(random: &mut Random) -> Bytes {
    const MARKS: &[&[u8; 2]] = &[
        b"CF", b"HC", b"HM", b"HD", b"HN", b"HR", b"BL", b"BQ", b"BV", b"BC", b"BM", b"BF", b"BB", b"SN", b"SC", b"SI", b"SQ",
        b"SA",
    ];
    let mut bytes = Bytes::new();
    for _ in 0..1 + random.below(8) {
        bytes.extend(random.pick(MARKS));
        bytes.extend(vec![0; random.pick(&[0, 4, 4, 4, 5, 6, 7, 8])]);
    }
    bytes
}
