//! Random forms of every kind. The alphabet is small, so that names collide; it has the words that the pass or `to_sexp` treats apart.

use crate::random::Random;
use crate::records::{Binding, Body, Bytes, Form, Head, Helper, Hint, Kind, Lambda, Let, Loc, Pattern, Sexp};
use std::rc::Rc;

const PLAIN: &[&[u8]] = &[b"a", b"b", b"x", b"y", b"f"];
const SPECIAL: &[&[u8]] = &[
    b"q",
    b"quote",
    b"qq",
    b"unquote",
    b"@",
    b"&rest",
    b"&",
    b"let",
    b"let*",
    b"assign",
    b"lambda",
    b"list",
    b"",
    b"x_$_1",
    b"a_$_2",
    b"\x00",
    b"\x61\x00",
    b"\xff",
];
/// Numbers whose bytes are names too (97 is `a`, 113 `q`, 64 `@`), zero, and some of more bytes.
const NUMBERS: &[&[u8]] = &[b"\x00", b"\x01", b"a", b"q", b"@", b"x", b"\xff", b"\x00\x80", b"\x80\x00", b"qq", b"let"];
const MAX_LEVELS: usize = 30;
const MAX_LAMBDAS: usize = 6;

pub struct Maker {
    pub random: Random,
    /// How many more records may branch.
    budget: usize,
    next_loc: Loc,
}

/// Where a body stands.
#[derive(Clone, Copy)]
struct Around {
    levels: usize,
    lambdas: usize,
    in_assign: bool,
}

const OUTSIDE: Around = Around { levels: 0, lambdas: 0, in_assign: false };

impl Around {
    fn deeper(self, levels: usize) -> Around {
        Around { levels: self.levels + levels, ..self }
    }
}

impl Maker {
    pub fn seeded(seed: u64) -> Maker {
        Maker { random: Random::seeded(seed), budget: 0, next_loc: 0 }
    }

    /// A fresh form: a new budget, locations from 1.
    fn start(&mut self, budget: usize) {
        self.budget = budget;
        self.next_loc = 0;
    }

    pub fn some_form(&mut self, budget: usize) -> Form {
        self.start(budget);
        self.form(OUTSIDE)
    }

    pub fn some_helper(&mut self, budget: usize) -> Helper {
        self.start(budget);
        self.helper(OUTSIDE)
    }

    /// An HC.
    pub fn some_constant(&mut self, budget: usize) -> Helper {
        self.start(budget);
        let head = Head { loc: self.loc(), name: self.name(), rest: self.rest() };
        Helper::HC(head, self.body(OUTSIDE.deeper(1)))
    }

    pub fn some_assign(&mut self, budget: usize) -> Let {
        self.start(budget);
        match self.random.one_in(3) {
            true => self.let_of(OUTSIDE, Kind::Assign),
            false => self.planned_assign(OUTSIDE),
        }
    }

    fn spend(&mut self) -> bool {
        let some = self.budget > 0;
        self.budget = self.budget.saturating_sub(1);
        some
    }

    pub fn loc(&mut self) -> Loc {
        self.next_loc += 1;
        match self.random.below(40) {
            0 => self.random.draw() as Loc,
            1 => 0,
            _ => self.next_loc,
        }
    }

    pub fn name(&mut self) -> Bytes {
        let from = if self.random.below(4) < 3 { PLAIN } else { SPECIAL };
        self.random.pick(from).to_vec()
    }

    fn rest(&mut self) -> Bytes {
        (0..self.random.below(4)).map(|_| self.random.draw() as u8).collect()
    }

    fn keyword(&mut self) -> Option<Loc> {
        self.random.one_in(4).then(|| self.loc())
    }

    fn hint(&mut self) -> Hint {
        match self.random.below(12) {
            0 => Hint::NoChoice,
            1 => Hint::Inline(self.loc()),
            2 => Hint::NonInline(self.loc()),
            _ => Hint::Absent,
        }
    }

    fn atom(&mut self, name: &[u8]) -> Sexp {
        Sexp::SA(self.loc(), name.to_vec())
    }

    fn leaf(&mut self) -> Sexp {
        let loc = self.loc();
        match self.random.weighted(&[1, 2, 2, 9]) {
            0 => Sexp::SN(loc),
            1 => Sexp::SI(loc, self.random.pick(NUMBERS).to_vec()),
            2 => Sexp::SQ(loc, self.random.pick(b"\"'x"), self.name()),
            _ => Sexp::SA(loc, self.name()),
        }
    }

    /// One of the values that `nilp` accepts.
    fn nil(&mut self) -> Sexp {
        let loc = self.loc();
        match self.random.weighted(&[6, 1, 1, 1]) {
            0 => Sexp::SN(loc),
            1 => Sexp::SI(loc, vec![0]),
            2 => Sexp::SA(loc, Bytes::new()),
            _ => Sexp::SQ(loc, b'"', Bytes::new()),
        }
    }

    fn cons(&mut self, head: Sexp, tail: Sexp) -> Sexp {
        Sexp::SC(self.loc(), Rc::new(head), Rc::new(tail))
    }

    fn list(&mut self, elements: Vec<Sexp>, end: Sexp) -> Sexp {
        elements.into_iter().rev().fold(end, |tail, head| self.cons(head, tail))
    }

    pub fn sexp(&mut self, depth: usize) -> Sexp {
        if depth == 0 || !self.spend() {
            return self.leaf();
        }
        match self.random.below(10) {
            0..=3 => self.leaf(),
            4 | 5 => {
                let head = self.sexp(depth - 1);
                let tail = self.sexp(depth - 1);
                self.cons(head, tail)
            }
            6 | 7 => {
                let elements = (0..self.random.below(4)).map(|_| self.sexp(depth - 1)).collect();
                let end = if self.random.one_in(4) { self.leaf() } else { self.nil() };
                self.list(elements, end)
            }
            _ => self.quoting(depth),
        }
    }

    /// A list that starts with a word of quoting, most often with as many elements as its rule wants.
    fn quoting(&mut self, depth: usize) -> Sexp {
        let word = self.random.pick(&[&b"q"[..], b"quote", b"qq", b"qq", b"unquote"]);
        let wanted = if self.random.one_in(4) { self.random.below(3) } else { 1 };
        let mut elements = vec![self.atom(word)];
        for _ in 0..wanted {
            elements.push(self.sexp(depth - 1));
        }
        let end = if self.random.one_in(8) { self.leaf() } else { self.nil() };
        self.list(elements, end)
    }

    fn args(&mut self) -> Sexp {
        match self.random.below(5) {
            0 => self.leaf(),
            1 => self.nil(),
            _ => self.sexp(4),
        }
    }

    fn body(&mut self, around: Around) -> Body {
        if around.levels >= MAX_LEVELS || !self.spend() {
            return self.simple_body();
        }
        let lambda = if around.lambdas < MAX_LAMBDAS { 3 } else { 0 };
        let a_macro = if around.in_assign { self.random.one_in(15) as usize } else { 1 };
        match self.random.weighted(&[3, 5, 4, lambda, a_macro]) {
            0 => self.simple_body(),
            1 => {
                let kind = self.random.pick(&[Kind::Parallel, Kind::Parallel, Kind::Sequential, Kind::Assign, Kind::Assign]);
                let planned = kind == Kind::Assign && !self.random.one_in(3);
                Body::BL(Box::new(if planned { self.planned_assign(around) } else { self.let_of(around, kind) }))
            }
            2 => self.call(around.deeper(1)),
            3 => self.lambda(around),
            _ => Body::BM(self.loc(), Box::new(self.form(around.deeper(1)))),
        }
    }

    fn simple_body(&mut self) -> Body {
        match self.random.below(6) {
            0 => Body::BQ(self.sexp(2)),
            1 => Body::BV(self.sexp(2)),
            _ => Body::BV(self.leaf()),
        }
    }

    fn pattern(&mut self) -> Pattern {
        match self.random.one_in(3) {
            true => Pattern::Name(self.name()),
            false => Pattern::Complex(self.sexp(3)),
        }
    }

    fn let_of(&mut self, around: Around, kind: Kind) -> Let {
        let count = self.random.weighted(&[1, 6, 6, 3, 1]);
        let levels = if kind == Kind::Sequential { count.max(1) } else { 1 };
        let inside = around.deeper(levels);
        let in_binding = Around { in_assign: around.in_assign || kind == Kind::Assign, ..inside };
        let (loc, keyword, hint) = (self.loc(), self.keyword(), self.hint());
        let bindings = (0..count).map(|_| self.binding(in_binding)).collect();
        Let { kind, loc, keyword, hint, bindings, body: self.body(inside) }
    }

    fn binding(&mut self, around: Around) -> Binding {
        let (loc, name_loc, pattern) = (self.loc(), self.loc(), self.pattern());
        Binding { loc, name_loc, pattern, body: self.body(around) }
    }

    /// An assign whose bindings need earlier ones of a plan, written in another sequence; at times with a cycle.
    fn planned_assign(&mut self, around: Around) -> Let {
        let count = 1 + self.random.below(6);
        let (loc, keyword, hint) = (self.loc(), self.keyword(), self.hint());
        let inside = around.deeper(1);
        let in_binding = Around { in_assign: true, ..inside };
        let mut bindings: Vec<Binding> = (0..count).map(|plan| self.planned_binding(in_binding, plan, count)).collect();
        self.random.shuffle(&mut bindings);
        let body = match self.random.one_in(3) {
            true => self.body(inside),
            false => Body::BV(self.planned_name(count)),
        };
        Let { kind: Kind::Assign, loc, keyword, hint, bindings, body }
    }

    fn planned_name(&mut self, below: usize) -> Sexp {
        let name = [b'k', b'0' + self.random.below(below) as u8];
        self.atom(&name)
    }

    fn planned_binding(&mut self, around: Around, plan: usize, count: usize) -> Binding {
        let (loc, name_loc) = (self.loc(), self.loc());
        let name = [b'k', b'0' + plan as u8];
        let pattern = match self.random.below(8) {
            0 => Pattern::Name(name.to_vec()),
            1 => {
                let (head, tail) = (self.atom(&name), self.leaf());
                Pattern::Complex(self.cons(head, tail))
            }
            _ => Pattern::Complex(self.atom(&name)),
        };
        let reach = if self.random.one_in(9) { count } else { plan };
        let mut elements = vec![Body::BV(self.leaf())];
        for _ in 0..self.random.below(3) {
            if reach > 0 {
                elements.push(Body::BV(self.planned_name(reach)));
            }
        }
        if self.random.one_in(4) {
            elements.push(self.body(around.deeper(1)));
        }
        Binding { loc, name_loc, pattern, body: Body::BC(self.loc(), elements, None) }
    }

    fn call(&mut self, inside: Around) -> Body {
        let loc = self.loc();
        let elements = (0..self.random.weighted(&[1, 3, 4, 2, 1])).map(|_| self.body(inside)).collect();
        let tail = self.random.one_in(4).then(|| Box::new(self.body(inside)));
        Body::BC(loc, elements, tail)
    }

    fn lambda(&mut self, around: Around) -> Body {
        let inside = Around { lambdas: around.lambdas + 1, ..around.deeper(1) };
        let (loc, keyword) = (self.loc(), self.keyword());
        let capture_args = self.args();
        let captures = if self.random.one_in(3) { self.body(inside) } else { self.simple_body() };
        let args = self.args();
        Body::BF(Box::new(Lambda { loc, keyword, capture_args, captures, args, body: self.body(inside) }))
    }

    fn helper(&mut self, around: Around) -> Helper {
        let inside = around.deeper(1);
        let head = Head { loc: self.loc(), name: self.name(), rest: self.rest() };
        let kind = if around.levels + 3 < MAX_LEVELS && self.spend() { self.random.below(7) } else { 6 };
        match kind {
            0 => Helper::HC(head, self.body(inside)),
            1 => Helper::HM(head, self.args(), self.form(inside)),
            2..=4 => Helper::HD(head, self.random.one_in(2), self.args(), self.body(inside)),
            5 => Helper::HN(head, self.helpers(inside)),
            _ => Helper::HR(head),
        }
    }

    fn helpers(&mut self, inside: Around) -> Vec<Helper> {
        (0..self.random.weighted(&[4, 3, 2, 1])).map(|_| self.helper(inside)).collect()
    }

    fn form(&mut self, around: Around) -> Form {
        let inside = around.deeper(1);
        let (loc, rest, args) = (self.loc(), self.rest(), self.args());
        Form { loc, rest, args, helpers: self.helpers(inside), body: self.body(inside) }
    }
}
