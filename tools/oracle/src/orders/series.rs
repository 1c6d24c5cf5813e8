//! Series of cases of the call Order: all shapes first, then random ones without end.

use super::bodies::{integer, leaf, quoted, KINDS, MENTIONS, USES};
use super::heads;
use super::shapes::{self, assign, bound, name_of, of_needs};
use crate::answers::{Call, Case};
use crate::boundary;
use crate::cases::{body_of, call, cons, let_of, named, nil, number};
use crate::generate::Maker;
use crate::random::Random;
use crate::records::{Binding, Body, Bytes, Hint, Let, Pattern, Record};
use crate::sample;
use std::collections::VecDeque;

/// The most bytes of a random input of a short series.
const SMALL: usize = 260;
/// The BQ in a body of very many needs: in a short series, and in any other.
const QUOTES: [usize; 2] = [1700, 1780];
/// The words that `to_sexp` writes, and others that are easily confused.
const SPECIAL: &[&[u8]] = &[
    b"q",
    b"let",
    b"let*",
    b"assign",
    b"lambda",
    b"&",
    b"&rest",
    b"@",
    b"",
    b"\x00",
    b"a",
    b"x",
    b"\xff",
    b"\x00\x80",
    b"k0",
    b"k1",
];
const LOCS: &[u32] = &[0, 1, 255, 256, 65536, 16909060, 4294967295];

pub struct Series {
    maker: Maker,
    waiting: VecDeque<Case>,
    full: bool,
}

impl Iterator for Series {
    type Item = Case;

    fn next(&mut self) -> Option<Case> {
        while self.waiting.is_empty() {
            self.more();
        }
        self.waiting.pop_front()
    }
}

impl Series {
    /// With chains of every length, and random assigns of any length.
    pub fn full(seed: u64) -> Series {
        Series::seeded(seed, true)
    }

    /// With chains of some lengths, and short random assigns.
    pub fn short(seed: u64) -> Series {
        Series::seeded(seed, false)
    }

    fn seeded(seed: u64, full: bool) -> Series {
        let mut series = Series { maker: Maker::seeded(seed), waiting: VecDeque::new(), full };
        series.small_shapes();
        series.chains();
        series.limits();
        series
    }

    fn wait(&mut self, data: &Let) {
        let case = heads::plain(&mut self.maker.random, data.bytes(), data.bindings.len());
        self.waiting.push_back(case);
    }

    fn wait_all(&mut self, all: Vec<Vec<Binding>>) {
        for bindings in all {
            let loc = self.maker.random.pick(LOCS);
            self.wait(&assign(loc, bindings));
        }
    }

    fn small_shapes(&mut self) {
        for name in [&b"x"[..], b"a", b"", b"@", b"\x00"] {
            self.wait_all(shapes::uses(name));
        }
        for all in [shapes::written(), shapes::captured(), shapes::alike(), shapes::repeated(), shapes::long()] {
            self.wait_all(all);
        }
    }

    fn chains(&mut self) {
        let some = [0, 1, 2, 3, 4, 5, 7, 8, 9, 31, 32, 33, 63, 64];
        let counts: Vec<usize> = if self.full { (0..=64).collect() } else { some.to_vec() };
        for count in counts {
            for way in [Some(0), Some(1), None] {
                let random = &mut self.maker.random;
                let mut all =
                    vec![shapes::forward(count), shapes::backward(count), shapes::shuffled(random, count), vec![vec![]; count]];
                all.push(shapes::random_dag(random, count, 3));
                for length in [1, 2, count] {
                    if (1..=count).contains(&length) {
                        all.push(shapes::ring(random, count, length));
                    }
                }
                self.wait_all(all.iter().map(|needs| of_needs(needs, way)).collect());
            }
        }
    }

    /// 65 bindings, very many needs, BM, and every limit beside the input.
    fn limits(&mut self) {
        self.wait_all(vec![of_needs(&shapes::forward(65), None)]);
        self.wait_all(shapes::many_needs(QUOTES[self.full as usize]));
        shapes::with_mods().iter().for_each(|data| self.wait(data));
        let needs = [vec![], shapes::forward(4), shapes::backward(5), vec![vec![1], vec![0], vec![]], vec![vec![]; 64]];
        for needs in needs {
            self.waiting.extend(heads::all_tight(&assign(9, of_needs(&needs, Some(1)))));
        }
    }

    /// The next random case: a damaged one, one at a limit, or a whole one.
    fn more(&mut self) {
        let data = self.some_assign();
        let (mut input, count) = (data.bytes(), data.bindings.len());
        let random = &mut self.maker.random;
        match random.below(12) {
            0 => input = boundary::input(random, Call::Order),
            1 => input = sample::damaged(random, input),
            _ => {}
        }
        if !self.full && input.len() > SMALL {
            return;
        }
        let case = match random.one_in(8) {
            true => heads::tight(random, input, count),
            false => heads::plain(random, input, count),
        };
        self.waiting.push_back(case);
    }

    fn some_assign(&mut self) -> Let {
        if self.maker.random.one_in(3) {
            let budget = self.maker.random.pick(&[2, 6, 12, 24]);
            return self.maker.some_assign(budget);
        }
        let random = &mut self.maker.random;
        let most = if self.full { random.pick(&[3, 6, 6, 12, 30, 64]) } else { 6 };
        let count = random.below(most + 1);
        let needs = some_needs(random, count);
        let names: Vec<Bytes> = (0..count).map(|index| some_name(random, index)).collect();
        let bindings = (0..count).map(|index| some_binding(random, &names, index, &needs[index])).collect();
        let loc = random.pick(LOCS);
        Let { hint: some_hint(random), keyword: random.one_in(4).then_some(3), ..assign(loc, bindings) }
    }
}

fn some_hint(random: &mut Random) -> Hint {
    random.pick(&[Hint::Absent, Hint::Absent, Hint::NoChoice, Hint::Inline(4), Hint::NonInline(5)])
}

fn some_needs(random: &mut Random, count: usize) -> Vec<Vec<usize>> {
    match random.below(8) {
        0 => shapes::forward(count),
        1 => shapes::backward(count),
        2 => shapes::shuffled(random, count),
        3 if count > 0 => {
            let length = 1 + random.below(count);
            shapes::ring(random, count, length)
        }
        4 => vec![vec![]; count],
        _ => shapes::random_dag(random, count, 2),
    }
}

/// Mostly a name of its own, at times one that others have too.
fn some_name(random: &mut Random, index: usize) -> Bytes {
    match random.below(6) {
        0 => random.pick(SPECIAL).to_vec(),
        1 => name_of(random.below(index + 1)),
        _ => name_of(index),
    }
}

fn some_binding(random: &mut Random, names: &[Bytes], index: usize, needs: &[usize]) -> Binding {
    let mut elements: Vec<Body> = needs.iter().map(|need| random.pick(&USES)(&names[*need])).collect();
    if random.one_in(4) {
        let name = random.pick(names);
        elements.push(random.pick(&MENTIONS)(&name));
    }
    if random.one_in(8) {
        let word = random.pick(SPECIAL);
        elements.push(random.pick(&USES)(word));
    }
    let body = match elements.len() {
        0 => number(1),
        1 => elements.remove(0),
        _ => call(elements),
    };
    let way = random.below(6);
    match random.one_in(8) {
        true => several(random, names, index, body),
        false => bound(way, &names[index], body),
    }
}

/// A pattern of several names, in a list.
fn several(random: &mut Random, names: &[Bytes], index: usize, body: Body) -> Binding {
    let mut pattern = if random.one_in(2) { nil() } else { leaf(&names[index]) };
    for _ in 0..random.below(3) {
        let name = random.pick(names);
        let kinds = [leaf(&name), quoted(&name), integer(&name)];
        pattern = cons(random.pick(&kinds), pattern);
    }
    let pattern = cons(leaf(&names[index]), pattern);
    shapes::bind(Pattern::Complex(pattern), wrapped(random, body))
}

/// A body, at times in a let of some kind.
fn wrapped(random: &mut Random, body: Body) -> Body {
    let kind = random.pick(&KINDS);
    match random.below(3) {
        0 => body_of(let_of(kind, vec![named("w", body)], number(1))),
        1 => body_of(let_of(kind, vec![], body)),
        _ => body,
    }
}
