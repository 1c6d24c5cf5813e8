//! Series of cases of the three calls: directed ones first, of them those of Own and In-body before the others; then random ones.

use super::gathered::{Gathered, COUNTERS, LOCS};
use super::{limits, shapes, sums, Case};
use crate::answers::{self, Call, MAX_COUNTER, MAX_F, MIN_F, WORK_PER_F};
use crate::generate::Maker;
use crate::records::{Bytes, Record};
use crate::{bodies, cases, reads, sample};
use std::collections::VecDeque;

/// The most bytes of a random input of a short series.
const SMALL: usize = 420;
/// How many rows of several helpers there are.
const ROWS: usize = 8;

/// Cases, one after the other.
pub struct Series {
    maker: Maker,
    waiting: VecDeque<Case>,
    full: bool,
}

impl Iterator for Series {
    type Item = Case;

    fn next(&mut self) -> Option<Case> {
        self.waiting.pop_front().or_else(|| Some(self.random()))
    }
}

impl Series {
    /// Directed cases of some sizes, and short random ones.
    pub fn short(seed: u64) -> Series {
        Series::directed(seed, false)
    }

    /// Every directed case, and random ones of any length.
    pub fn full(seed: u64) -> Series {
        Series::directed(seed, true)
    }

    /// Random cases of any length alone.
    pub fn unending(seed: u64) -> Series {
        Series { maker: Maker::seeded(seed), waiting: VecDeque::new(), full: true }
    }

    /// Directed cases, and then random ones.
    fn directed(seed: u64, full: bool) -> Series {
        let mut gathered = bodies::Series::seeded(seed, full).gathered;
        let mut series = Series { full, ..Series::unending(seed) };
        series.worked(&mut gathered);
        series.rules(&mut gathered);
        limits::given(&mut gathered);
        limits::buffers(&mut gathered);
        limits::damaged(&mut gathered, &mut series.maker.random);
        limits::records(&mut gathered, full);
        limits::lengths(&mut gathered);
        sums::finished(&mut gathered);
        sums::sums(&mut gathered, &mut series.maker.random, full);
        sums::two_refusals(&mut gathered, &mut series.maker.random, full);
        series.waiting = gathered.0.into();
        series
    }

    /// The worked cases of the specification, by each call that takes their record.
    fn worked(&mut self, gathered: &mut Gathered) {
        for case in cases::worked() {
            if case.call != Call::Name && case.call != Call::Order {
                gathered.given("worked case", case.clone());
                gathered.buffers("worked case", case.call, case.counter, case.input.clone());
                gathered.plain("worked case, by Children only", Call::Children, 0, case.input);
            }
        }
    }

    /// Every rule on every kind of record; args of every kind.
    fn rules(&mut self, gathered: &mut Gathered) {
        for shaped in shapes::rules().into_iter().chain(shapes::macros()).chain(shapes::kept()).chain(shapes::kept_args()) {
            let random = &mut self.maker.random;
            limits::plain(gathered, random.pick(COUNTERS), random.pick(LOCS), vec![shaped]);
        }
        for args in shapes::quoting() {
            let random = &mut self.maker.random;
            limits::plain(gathered, random.pick(COUNTERS), random.pick(LOCS), shapes::with_args("args", &args));
        }
        for (turn, args) in shapes::patterns().into_iter().enumerate() {
            let mut all = shapes::with_args("args", &args);
            let count = all.len();
            all.rotate_left(turn % count);
            all.truncate(if self.full { count } else { 2 });
            let random = &mut self.maker.random;
            limits::plain(gathered, random.pick(COUNTERS), random.pick(LOCS), all);
        }
        for counter in [0, MAX_COUNTER - 1] {
            let join = 3 + (counter + 1).to_string().len();
            for made in 254..=256 {
                limits::plain(gathered, counter, 0, shapes::long(made - join));
            }
        }
        for _ in 0..ROWS {
            let random = &mut self.maker.random;
            let order: Vec<usize> = (0..1 + random.below(4)).map(|_| random.below(100)).collect();
            limits::plain(gathered, random.pick(COUNTERS), random.pick(LOCS), shapes::several(&order));
        }
    }

    /// A random case: whole, damaged, at a limit, or of random bytes.
    fn random(&mut self) -> Case {
        let call = self.maker.random.pick(&[Call::Whole, Call::Whole, Call::Children, Call::Helper]);
        let most = if self.full { MAX_F as usize } else { SMALL };
        let (about, case) = match self.maker.random.weighted(&[8, 2, 1]) {
            0 => ("random", sample::some_case(&mut self.maker, call, most, usize::MAX)),
            1 => ("random body", self.constant(most)),
            _ => ("random bytes", self.noise(call)),
        };
        let work = case.work.min(WORK_PER_F * MAX_F);
        Case { about: about.to_string(), call: answers::Case { work, ..case } }
    }

    /// An HC with a random body, at times damaged.
    fn constant(&mut self, most: usize) -> answers::Case {
        loop {
            let budget = [2, 6, 12, 24, 60][self.maker.random.weighted(&[1, 4, 6, 4, self.full as usize])];
            let mut input = self.maker.some_constant(budget).bytes();
            let random = &mut self.maker.random;
            if random.one_in(40) {
                input = sample::damaged(random, input);
            }
            if input.len() <= most {
                return sample::tuned(random, Call::Helper, input);
            }
        }
    }

    /// Random bytes, at times behind the mark that the call asks for, and rows of marks.
    fn noise(&mut self, call: Call) -> answers::Case {
        let random = &mut self.maker.random;
        let mark: &[u8] = match call {
            Call::Helper => random.pick(&[b"HC", b"HM", b"HD", b"HN", b"HR"]),
            _ => b"CF",
        };
        let mut input = if random.one_in(3) { Bytes::new() } else { mark.to_vec() };
        input.extend(if random.one_in(2) { reads::noise(random) } else { reads::marks(random) });
        let f = (input.len() as u64).clamp(MIN_F, MAX_F);
        answers::Case { call, f, work: WORK_PER_F * f, counter: sample::some_counter(random), buffer: f as usize, input }
    }
}
