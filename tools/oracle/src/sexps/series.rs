//! Series of cases of Invent and Substitute: the edges first, then random ones without end.

use super::shapes::{self, list, named, placed_from, WORDS};
use super::{Case, Room, Rule, RULES};
use crate::answers::{MAX_COUNTER, MAX_F, MAX_NAME, MIN_F};
use crate::cases::{atom, cons, nil};
use crate::random::Random;
use crate::records::{Bytes, Record, Sexp};
use std::collections::VecDeque;

/// Counters after which a number has one digit more, others, and the limit.
const COUNTERS: &[u64] = &[0, 1, 7, 8, 9, 10, 98, 99, 998, 999, 65535, 999999998, 999999999, MAX_COUNTER - 1, MAX_COUNTER];
/// The names of random records: few, so that they collide.
const NAMES: &[&[u8]] = &[b"x", b"y", b"z", b"x", b"y", b"q", b"quote", b"qq", b"unquote", b"@", b"", b"a_longer_name", b"x_$_1"];
const NUMBERS: &[&[u8]] = &[b"\x00", b"\x00", b"\x01", b"x", b"y", b"q", b"\x00\x80", b"\xff"];
/// Where the L of a random case start; the last ones pass to 0.
const LOCS: &[u32] = &[2, 2, 2, 200, 65530, 16909060, u32::MAX - 5];
/// What an SA without its name, and what `gensym` adds to a name beside the digits, take.
const ATOM: usize = 7;
const JOIN: usize = 3;
/// The cons depth that the records may have.
const DEEPEST: usize = 64;

pub struct Series {
    random: Random,
    waiting: VecDeque<Case>,
}

impl Iterator for Series {
    type Item = Case;

    fn next(&mut self) -> Option<Case> {
        while self.waiting.is_empty() {
            self.more();
        }
        self.waiting.pop_front()
    }
}

impl Series {
    pub fn seeded(seed: u64) -> Series {
        let mut series = Series { random: Random::seeded(seed), waiting: VecDeque::new() };
        series.words();
        series.places();
        series.patterns();
        series.long_names();
        series.depths();
        series.rooms();
        series.large();
        series
    }

    fn wait(&mut self, rule: Rule, counter: u64, room: Room, pattern: &Sexp, target: &Sexp) {
        let mut next = self.random.pick(LOCS);
        let (pattern, target) = (placed_from(pattern, &mut next), placed_from(target, &mut next));
        let case = Case { f: 0, room, counter, rule, pattern, target };
        let (least, most) = (MIN_F as usize, MAX_F as usize);
        let length = case.input().len();
        let f = self.random.pick(&[length, length, length + 1, most]).clamp(least, most);
        self.waiting.push_back(Case { f, ..case });
    }

    fn some_counter(&mut self) -> u64 {
        match self.random.one_in(2) {
            true => self.random.below(200) as u64,
            false => self.random.pick(COUNTERS),
        }
    }

    /// A case that is refused for nothing, with a pattern of the names that targets have.
    fn plain(&mut self, rule: Rule, target: &Sexp) {
        let names = list(vec![atom("x"), atom("y"), atom("z"), atom("quote"), named(b"")], nil());
        let counter = self.some_counter();
        let room = self.random.pick(&[Room::More(0), Room::More(0), Room::More(1), Room::Of(MAX_F as usize)]);
        self.wait(rule, counter, room, &names, target);
    }

    /// Each word with 0 to 3 elements and each end, and with each element.
    fn words(&mut self) {
        let rules = [Rule::ConsQq, Rule::InQq, Rule::Cons];
        for word in WORDS {
            let rules = if word == "qq" { &rules[..] } else { &rules[..2] };
            for rule in rules {
                for count in 0..=3 {
                    for end in [shapes::closers(), shapes::other_ends()].concat() {
                        self.plain(*rule, &shapes::worded(word, count, end));
                    }
                }
                for element in shapes::elements() {
                    self.plain(*rule, &list(vec![atom(word), element], nil()));
                }
            }
        }
        for element in shapes::elements() {
            RULES.iter().for_each(|rule| self.plain(*rule, &element));
        }
    }

    /// Each word's list in each place.
    fn places(&mut self) {
        for word in WORDS {
            let lists = [
                shapes::worded(word, 1, nil()),
                shapes::worded(word, 1, shapes::integer(b"\x00")),
                shapes::worded(word, 2, nil()),
            ];
            for (index, inner) in lists.iter().enumerate() {
                for target in shapes::placed(inner) {
                    let rules = if index == 0 { &RULES[..3] } else { &RULES[1..2] };
                    rules.iter().for_each(|rule| self.plain(*rule, &target));
                }
            }
        }
    }

    /// Each pattern at some counters, by its own map.
    fn patterns(&mut self) {
        for pattern in shapes::patterns() {
            for counter in [0, 8, 9, 98, 99, 999999999, MAX_COUNTER] {
                let rule = self.random.pick(&RULES);
                self.wait(rule, counter, Room::More(0), &pattern, &pattern);
            }
        }
    }

    /// Names that make one of 255 bytes, one less and one more: alone, and among others.
    fn long_names(&mut self) {
        let long = |length| named(&vec![b'n'; length]);
        for counter in [0, 8, 9, 98, 99, 999999999, MAX_COUNTER] {
            let most = MAX_NAME - JOIN - (counter + 1).to_string().len();
            for length in [most - 1, most, most + 1, MAX_NAME] {
                self.wait(Rule::Cons, counter, Room::More(0), &long(length), &long(length));
            }
            for length in [most - 1, most, most + 1] {
                let first = cons(cons(atom("x"), long(length)), atom("y"));
                self.wait(Rule::ConsQq, counter, Room::More(0), &first, &atom("y"));
                let last = list(vec![atom("x"), atom("@"), atom("x")], long(length));
                self.wait(Rule::ConsQq, counter, Room::More(0), &last, &atom("x"));
            }
        }
        for length in 240..=MAX_NAME {
            self.wait(Rule::Alone, 9, Room::More(0), &long(length), &long(length));
        }
    }

    /// The two greatest depths.
    fn depths(&mut self) {
        for depth in [DEEPEST - 1, DEEPEST] {
            for sexp in shapes::deep(depth) {
                self.wait(Rule::Cons, 0, Room::More(0), &sexp, &atom("x"));
                RULES.iter().for_each(|rule| self.plain(*rule, &sexp));
                self.wait(Rule::ConsQq, 90, Room::Less(1), &sexp, &sexp);
            }
        }
    }

    /// Every room from none to more than enough, for an atom, a list, a `quote`, a `qq` with an `unquote`.
    fn rooms(&mut self) {
        let quote = shapes::worded("quote", 1, shapes::integer(b"\x00"));
        let unquote = list(vec![atom("y"), atom("unquote"), atom("x")], nil());
        let targets = [
            (Rule::Alone, atom("x")),
            (Rule::Alone, cons(atom("x"), atom("y"))),
            (Rule::Cons, cons(atom("x"), cons(quote, atom("unknown")))),
            (Rule::ConsQq, list(vec![atom("qq"), unquote], nil())),
            (Rule::InQq, shapes::worded("unquote", 1, nil())),
            (Rule::Cons, shapes::worded("q", 1, nil())),
        ];
        for (rule, target) in targets {
            let pattern = cons(atom("x"), atom("y"));
            for room in 0..=target.size() + 2 * ATOM {
                self.wait(rule, 9, Room::Of(room), &pattern, &target);
            }
            for room in [Room::Less(1), Room::More(0), Room::More(1), Room::Of(MAX_F as usize), Room::Of(65535)] {
                self.wait(rule, 99, room, &pattern, &target);
            }
        }
    }

    /// As many names as fit, the empty one and longer ones.
    fn large(&mut self) {
        let empty = shapes::full(9, &named(b""));
        self.wait(Rule::Cons, MAX_COUNTER, Room::More(0), &empty, &empty);
        let long = shapes::full(5, &named(&[b'l'; 200]));
        self.wait(Rule::ConsQq, 9, Room::Less(1), &long, &long);
        self.wait(Rule::Cons, 9, Room::More(0), &long, &long);
    }

    /// The next random case.
    fn more(&mut self) {
        let depth = self.random.pick(&[0, 1, 2, 2, 3]);
        let pattern = self.sexp(depth);
        let depth = self.random.pick(&[0, 2, 3, 4, 5]);
        let mut target = self.sexp(depth);
        if self.random.one_in(3) {
            let place = shapes::placed(&target);
            target = self.random.pick(&place);
        }
        if pattern.size() + target.size() > 360 {
            return;
        }
        let rule = self.random.pick(&[
            Rule::Cons,
            Rule::Cons,
            Rule::ConsQq,
            Rule::ConsQq,
            Rule::ConsQq,
            Rule::InQq,
            Rule::InQq,
            Rule::Alone,
        ]);
        let counter = self.some_counter();
        let few = self.random.below(200);
        let rooms =
            [Room::More(0), Room::More(0), Room::More(0), Room::More(1), Room::Less(1), Room::Of(few), Room::Of(MAX_F as usize)];
        let room = self.random.pick(&rooms);
        self.wait(rule, counter, room, &pattern, &target);
    }

    fn name(&mut self) -> Bytes {
        match self.random.one_in(150) {
            true => vec![b'n'; 240 + self.random.below(16)],
            false => self.random.pick(NAMES).to_vec(),
        }
    }

    fn leaf(&mut self) -> Sexp {
        match self.random.weighted(&[1, 2, 2, 10]) {
            0 => nil(),
            1 => shapes::integer(self.random.pick(NUMBERS)),
            2 => Sexp::SQ(0, self.random.pick(b"\"'"), self.name()),
            _ => named(&self.name()),
        }
    }

    fn end(&mut self) -> Sexp {
        match self.random.one_in(4) {
            true => self.leaf(),
            false => self.random.pick(&shapes::closers()),
        }
    }

    fn sexp(&mut self, depth: usize) -> Sexp {
        if depth == 0 {
            return self.leaf();
        }
        match self.random.weighted(&[2, 3, 4, 5]) {
            0 => self.leaf(),
            1 => {
                let head = self.sexp(depth - 1);
                cons(head, self.sexp(depth - 1))
            }
            2 => self.some_list(vec![], depth, 3),
            _ => {
                let word = atom(self.random.pick(&WORDS));
                let before = if self.random.one_in(4) { vec![self.leaf()] } else { vec![] };
                let most = self.random.pick(&[1, 1, 1, 2]);
                self.some_list([before, vec![word]].concat(), depth, most)
            }
        }
    }

    /// These elements, and from none to so many more.
    fn some_list(&mut self, mut elements: Vec<Sexp>, depth: usize, most: usize) -> Sexp {
        let count = if self.random.one_in(4) { self.random.below(most + 2) } else { most };
        for _ in 0..count {
            elements.push(self.sexp(depth - 1));
        }
        let end = self.end();
        list(elements, end)
    }
}
