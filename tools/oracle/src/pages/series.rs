//! Cases of the call Page: first names of every length and byte, depth past the end of a line, every kind of record, a BM where the
//! other calls refuse one, and F, work memory and buffer at their limits; then random forms, damaged ones among them.

use super::{lines, Case, LINE};
use crate::answers::{Call, MAX_F, MIN_F, WORK_PER_F};
use crate::boundary;
use crate::cases::{atom, body_of, complex, cons, form_of, lambda, let_of, named, nil, number, var};
use crate::generate::Maker;
use crate::random::Random;
use crate::reader;
use crate::records::{Body, Bytes, Form, Head, Helper, Kind, Record, Sexp};
use crate::sample::damaged;

/// The longest input and the longest page of a short series.
const SHORT: (usize, usize) = (900, 80 * LINE);
const ANY: (usize, usize) = (usize::MAX, usize::MAX);

pub struct Series {
    maker: Maker,
    directed: std::vec::IntoIter<Case>,
    most: (usize, usize),
}

impl Series {
    /// Directed cases, and small random ones.
    pub fn short(seed: u64) -> Series {
        Series { maker: Maker::seeded(seed), directed: directed().into_iter(), most: SHORT }
    }

    /// Directed cases, and random ones of any length.
    pub fn full(seed: u64) -> Series {
        Series { most: ANY, ..Series::short(seed) }
    }

    fn fits(&self, input: &[u8]) -> bool {
        input.len() <= self.most.0 && page_length(input) <= self.most.1
    }
}

impl Iterator for Series {
    type Item = Case;

    fn next(&mut self) -> Option<Case> {
        if let Some(case) = self.directed.next() {
            return Some(case);
        }
        loop {
            let input = some_input(&mut self.maker);
            if self.fits(&input) {
                return Some(tuned(&mut self.maker.random, input));
            }
        }
    }
}

/// The length of the page of an input; of a refused one 0.
fn page_length(input: &[u8]) -> usize {
    reader::form_with_mods(input).map_or(0, |form| LINE * lines(&form).len())
}

/// A case with all the room that it asks for.
fn roomy(input: Bytes) -> Case {
    let f = (input.len() as u64).clamp(MIN_F, MAX_F);
    Case { f, work: WORK_PER_F * f, buffer: page_length(&input), input }
}

fn some_input(maker: &mut Maker) -> Bytes {
    let budget = [2, 6, 12, 24, 60][maker.random.weighted(&[3, 6, 6, 4, 1])];
    let input = match maker.random.one_in(12) {
        true => boundary::input(&mut maker.random, Call::Whole),
        false => maker.some_form(budget).bytes(),
    };
    match maker.random.one_in(5) {
        true => damaged(&mut maker.random, input),
        false => input,
    }
}

/// F, work memory and buffer near what an input asks for.
fn tuned(random: &mut Random, input: Bytes) -> Case {
    let length = input.len() as u64;
    let f = match random.weighted(&[8, 4, 2, 1]) {
        0 => (length + random.pick(&[0, 1, 100])).clamp(MIN_F, MAX_F),
        1 => length.clamp(MIN_F, MAX_F),
        2 => length.saturating_sub(1).clamp(MIN_F, MAX_F),
        _ => random.pick(&[MIN_F - 1, MIN_F, MAX_F, MAX_F + 1]),
    };
    let work = (WORK_PER_F * f).min(WORK_PER_F * MAX_F);
    let work = if random.one_in(30) { work - 1 } else { work };
    let page = page_length(&input);
    let buffer = match random.weighted(&[5, 3, 3, 1]) {
        0 => page,
        1 => page + 1 + random.below(80),
        2 => page.saturating_sub(1),
        _ => random.below(page + 1),
    };
    Case { f, work, buffer, input }
}

/// An atom of these bytes.
fn bytes_atom(name: &[u8]) -> Sexp {
    Sexp::SA(0, name.to_vec())
}

fn head(name: &[u8]) -> Head {
    Head { loc: 0, name: name.to_vec(), rest: b"R".to_vec() }
}

/// Every kind of record.
fn every_kind() -> Form {
    let assign = let_of(Kind::Assign, vec![complex(atom("y"), number(1)), named("n", var("y"))], var("n"));
    let text = Body::BQ(Sexp::SQ(0, b'"', b"memo word".to_vec()));
    let call = Body::BC(0, vec![var("f"), text, number(5)], Some(Box::new(var("rest"))));
    let inner = Form { args: atom("z"), ..form_of(var("z")) };
    let parallel = let_of(Kind::Parallel, vec![complex(cons(atom("p"), nil()), Body::BM(0, Box::new(inner.clone())))], call);
    let helpers = vec![
        Helper::HC(head(b"constant"), body_of(assign)),
        Helper::HM(head(b"macro"), nil(), inner),
        Helper::HD(head(b"function"), true, atom("args"), lambda(atom("arg"), var("arg"))),
        Helper::HN(head(b"namespace"), vec![Helper::HR(head(b"import"))]),
        Helper::HR(head(b"")),
    ];
    Form { args: cons(atom("a"), atom("b")), helpers, ..form_of(body_of(parallel)) }
}

/// A body in so many calls.
fn calls(levels: usize, body: Body) -> Body {
    (0..levels).fold(body, |inner, _| Body::BC(0, vec![inner], None))
}

/// A body in so many lets, each in the binding of the next.
fn lets(levels: usize, body: Body) -> Body {
    (0..levels).fold(body, |inner, _| body_of(let_of(Kind::Parallel, vec![named("deep", inner)], number(0))))
}

/// An atom at the end of so many SC.
fn pairs(levels: usize) -> Sexp {
    (0..levels).fold(atom("last"), |tail, _| cons(nil(), tail))
}

/// A BM in a binding body of an assign, which is no refusal here.
fn mod_in_assign() -> Form {
    let inner = Body::BM(0, Box::new(form_of(var("x"))));
    form_of(body_of(let_of(Kind::Assign, vec![complex(atom("y"), inner)], var("y"))))
}

fn forms() -> Vec<Form> {
    let mut all = vec![every_kind(), mod_in_assign()];
    for length in [0, 1, 2, 60, 65, 66, 67, 68, 69, 70, 254, 255] {
        all.push(Form { args: bytes_atom(&vec![b'n'; length]), ..form_of(var("x")) });
        all.push(Form { helpers: vec![Helper::HR(head(&vec![b'h'; length]))], ..form_of(var("x")) });
    }
    for first in (0u8..=255).step_by(32) {
        let name: Bytes = (first..=first + 31).collect();
        all.push(Form { args: bytes_atom(&name), ..form_of(Body::BQ(Sexp::SQ(0, 1, name.clone()))) });
    }
    for levels in [1, 15, 29, 30] {
        all.push(form_of(calls(levels, var("x"))));
        all.push(form_of(lets(levels, var("x"))));
    }
    for levels in [1, 33, 34, 35, 36, 64] {
        all.push(Form { args: pairs(levels), ..form_of(var("x")) });
    }
    all
}

/// Each form in a buffer that is just long enough, one longer and one shorter; F and work memory at their limits; the sequence of
/// the refusals.
fn directed() -> Vec<Case> {
    let mut all = Vec::new();
    for form in forms() {
        let case = roomy(form.bytes());
        let buffer = case.buffer;
        all.extend([buffer, buffer + 1, buffer - 1].map(|buffer| Case { buffer, ..case.clone() }));
    }
    let case = roomy(every_kind().bytes());
    let (f, work) = (case.f, case.work);
    for f in [MIN_F - 1, MIN_F, f - 1, f, f + 1, MAX_F, MAX_F + 1] {
        all.push(Case { f, work: WORK_PER_F * f.min(MAX_F), ..case.clone() });
    }
    all.extend([work - 1, 0].map(|work| Case { work, ..case.clone() }));
    all.push(Case { buffer: 0, ..case.clone() });
    let left_over = Case { buffer: 0, f: f + 1, work: work + WORK_PER_F, ..case.clone() };
    all.push(Case { input: [case.input.as_slice(), b"x"].concat(), ..left_over.clone() });
    all.push(Case { input: case.input[..case.input.len() - 1].to_vec(), ..left_over });
    all.push(Case { buffer: 0, f: f - 1, ..case });
    all
}
