//! Inputs at each limit of the format and one past it: levels, counts, SC, BF, length.

use super::{Asked, Reading};
use crate::answers::MAX_F;
use crate::cases::{body_of, call, complex, cons, form_of, lambda, let_of, named, nil, number};
use crate::records::{Body, Bytes, Form, Head, Helper, Kind, Lambda, Record, Sexp};

pub type Inputs = Vec<(Asked, Bytes)>;

pub fn head(name: &[u8]) -> Head {
    Head { loc: 0, name: name.to_vec(), rest: Bytes::new() }
}

pub fn a_mod(form: Form) -> Body {
    Body::BM(0, Box::new(form))
}

pub fn capturing(captures: Body) -> Body {
    let lambda = Lambda { loc: 0, keyword: None, capture_args: nil(), captures, args: nil(), body: number(1) };
    Body::BF(Box::new(lambda))
}

/// Which of several inputs of one sort are taken: all of them, or one by turns.
pub struct Places {
    turn: Option<usize>,
}

impl Places {
    pub fn all() -> Places {
        Places { turn: None }
    }

    pub fn by_turns() -> Places {
        Places { turn: Some(0) }
    }

    pub fn is_all(&self) -> bool {
        self.turn.is_none()
    }

    pub fn pick(&mut self, inputs: Inputs) -> Inputs {
        match &mut self.turn {
            None => inputs,
            Some(turn) => {
                *turn += 1;
                vec![inputs[*turn % inputs.len()].clone()]
            }
        }
    }

    /// A body with one record around it: a CF, an HC, an assign that binds it, an assign whose body it is.
    pub fn put(&mut self, body: &Body) -> Inputs {
        let bound = let_of(Kind::Assign, vec![complex(nil(), body.clone())], number(1));
        let after = let_of(Kind::Assign, vec![], body.clone());
        self.pick(vec![
            (Asked::Form, form_of(body.clone()).bytes()),
            (Asked::Helper, Helper::HC(head(b""), body.clone()).bytes()),
            (Asked::Assign, bound.bytes()),
            (Asked::Assign, after.bytes()),
        ])
    }
}

fn empty() -> Body {
    Body::BV(nil())
}

fn sequential(count: usize, first: Body, body: Body) -> Body {
    let mut bindings = vec![named("", empty()); count];
    bindings.iter_mut().take(1).for_each(|binding| binding.body = first.clone());
    body_of(let_of(Kind::Sequential, bindings, body))
}

/// Each way for a body to stand in a body, one level down.
const WRAPS: [fn(Body) -> Body; 7] = [
    |inner| call(vec![inner]),
    |inner| Body::BC(0, vec![], Some(Box::new(inner))),
    |inner| body_of(let_of(Kind::Parallel, vec![named("", inner)], empty())),
    |inner| body_of(let_of(Kind::Parallel, vec![], inner)),
    |inner| body_of(let_of(Kind::Assign, vec![complex(nil(), inner)], empty())),
    |inner| sequential(0, empty(), inner),
    |inner| sequential(1, inner, empty()),
];

/// Bodies that end at level 32 and 33, and at level 33 with a wrong innermost mark and with half of one.
pub fn levels(places: &mut Places) -> Inputs {
    let mut inputs = Inputs::new();
    for wrap in WRAPS {
        let deep = |levels: usize| (1..levels).fold(Body::BQ(nil()), |inner, _| wrap(inner));
        inputs.extend(places.put(&deep(31)));
        let past = places.put(&deep(32));
        inputs.extend(past.iter().flat_map(without_innermost));
        inputs.extend(past);
    }
    inputs.extend(deep_mods(places));
    inputs.extend(deep_helpers());
    inputs
}

/// An input with its BQ mark made wrong, and cut off within it.
fn without_innermost((asked, input): &(Asked, Bytes)) -> Inputs {
    let place = input.windows(2).position(|mark| mark == b"BQ").expect("the innermost body is a BQ");
    let mut wrong = input.clone();
    wrong[place + 1] = b'X';
    vec![(*asked, wrong), (*asked, input[..place + 1].to_vec())]
}

/// Of BM and their CF, which are two levels each.
fn deep_mods(places: &mut Places) -> Inputs {
    let deep = |mods: usize, more: usize| {
        let inner = (0..more).fold(empty(), |inner, _| call(vec![inner]));
        (0..mods).fold(inner, |inner, _| a_mod(form_of(inner)))
    };
    [(15, 0), (15, 1), (15, 2), (16, 0)].iter().flat_map(|(mods, more)| places.put(&deep(*mods, *more))).collect()
}

/// Of namespaces and of macros, as a helper and in a form.
fn deep_helpers() -> Inputs {
    let space = |inner: Helper| Helper::HN(head(b""), vec![inner]);
    let a_macro = |inner: Helper| Helper::HM(head(b""), nil(), Form { helpers: vec![inner], ..form_of(empty()) });
    let last = || Helper::HR(head(b""));
    let spaces = (31..=33).map(|levels| (1..levels).fold(last(), |inner, _| space(inner)));
    let macros = (31..=33).map(|levels| {
        let start = if levels % 2 == 0 { space(last()) } else { last() };
        (0..(levels - 1) / 2).fold(start, |inner, _| a_macro(inner))
    });
    let both = |helper: Helper| {
        let form = Form { helpers: vec![helper.clone()], ..form_of(empty()) };
        [(Asked::Helper, helper.bytes()), (Asked::Form, form.bytes())]
    };
    spaces.chain(macros).flat_map(both).collect()
}

/// Sequential lets, whose levels are the number of their bindings: alone, in a body, in a binding body, in captures.
pub fn sequentials(places: &mut Places) -> Inputs {
    let alone = [0, 1, 2, 30, 31, 32, 33, 65].iter().map(|count| sequential(*count, empty(), empty()));
    let pairs = [(15, 15), (15, 16), (0, 29), (0, 30), (0, 31), (29, 0), (30, 0), (31, 0)];
    let nested = pairs.iter().flat_map(|(outer, inner)| {
        let inner = sequential(*inner, empty(), empty());
        [sequential(*outer, empty(), inner.clone()), sequential(*outer, inner, empty())]
    });
    let captured = (29..=31).map(|count| capturing(sequential(count, empty(), empty())));
    alone.chain(nested).chain(captured).flat_map(|body| places.put(&body)).collect()
}

/// 64 and 65 bindings, elements, helpers.
pub fn counts() -> Inputs {
    let lets = |kind: Kind, count: usize| let_of(kind, vec![named("", empty()); count], empty());
    let space = |count: usize| Helper::HN(head(b""), vec![Helper::HR(head(b"")); count]);
    let mut inputs = Inputs::new();
    for count in 64..=65 {
        let form = Form { helpers: vec![Helper::HR(head(b"")); count], ..form_of(empty()) };
        inputs.extend([
            (Asked::Form, form_of(call(vec![empty(); count])).bytes()),
            (Asked::Form, form_of(body_of(lets(Kind::Parallel, count))).bytes()),
            (Asked::Form, form.bytes()),
            (Asked::Helper, space(count).bytes()),
            (Asked::Helper, Helper::HC(head(b""), body_of(lets(Kind::Assign, count))).bytes()),
            (Asked::Assign, lets(Kind::Assign, count).bytes()),
        ]);
    }
    inputs
}

/// So many SC, one in the other: along the heads, along the tails, or by turns.
fn deep_cons(depth: usize, way: usize) -> Sexp {
    (0..depth).fold(nil(), |inner, index| match (way, index % 2) {
        (0, _) | (2, 0) => cons(inner, nil()),
        _ => cons(nil(), inner),
    })
}

/// 64 and 65 SC wherever an S record stands.
pub fn conses() -> Inputs {
    let mut inputs = Inputs::new();
    for depth in 64..=65 {
        let deep = |way: usize| deep_cons(depth, way);
        let lambdas = Lambda { loc: 0, keyword: None, capture_args: deep(0), captures: empty(), args: nil(), body: empty() };
        let form = Form { args: deep(1), ..form_of(Body::BQ(deep(2))) };
        let a_let = let_of(Kind::Parallel, vec![complex(deep(2), empty())], empty());
        inputs.extend([
            (Asked::Form, form.bytes()),
            (Asked::Form, form_of(Body::BV(cons(deep_cons(63, 0), deep_cons(depth - 1, 1)))).bytes()),
            (Asked::Form, form_of(lambda(deep(1), empty())).bytes()),
            (Asked::Form, form_of(Body::BF(Box::new(lambdas))).bytes()),
            (Asked::Form, form_of(body_of(a_let)).bytes()),
            (Asked::Helper, Helper::HD(head(b""), false, deep(0), empty()).bytes()),
            (Asked::Helper, Helper::HM(head(b""), deep(1), form_of(empty())).bytes()),
            (Asked::Assign, let_of(Kind::Assign, vec![complex(deep(0), empty())], empty()).bytes()),
        ]);
    }
    inputs
}

/// 6 and 7 BF around each other: in bodies, in captures, by turns, and with a BM and a helper between.
pub fn lambdas(places: &mut Places) -> Inputs {
    let between = |inner: Body| {
        let helper = Helper::HD(head(b""), true, nil(), inner);
        a_mod(Form { helpers: vec![helper], ..form_of(empty()) })
    };
    let deep = |count: usize, way: usize| {
        (0..count).fold(empty(), |inner, index| match (way, index % 2) {
            (0, _) | (2, 0) => lambda(nil(), inner),
            (3, _) => lambda(nil(), between(inner)),
            _ => capturing(inner),
        })
    };
    let shapes = (6..=7).flat_map(|count| (0..4).map(move |way| (count, way)));
    shapes.flat_map(|(count, way)| places.put(&deep(count, way))).collect()
}

/// The shortest beginning of an input that is refused as the whole is, where that is number 3: the test comes before the next field.
pub fn shortest(asked: Asked, input: &[u8]) -> Option<Bytes> {
    let refusal = |length: usize| Reading { asked, f: MAX_F, input: input[..length].to_vec() }.refusal();
    let whole = refusal(input.len());
    let length = (whole.place as usize..input.len()).find(|length| refusal(*length) == whole)?;
    (whole.number == 3).then(|| input[..length].to_vec())
}

/// A form of so many bytes.
fn form_of_length(length: usize) -> Bytes {
    let least = form_of(empty()).size();
    Form { rest: vec![0x53; length - least], ..form_of(empty()) }.bytes()
}

fn helper_of_length(length: usize) -> Bytes {
    let least = Helper::HR(head(b"")).size();
    Helper::HR(Head { rest: vec![0x42; length - least], ..head(b"") }).bytes()
}

/// Inputs as long as F, and one byte longer: then nothing in them counts.
pub fn lengths(all_f: &[u64]) -> Vec<Reading> {
    let mut readings = Vec::new();
    for f in all_f.iter().copied() {
        for length in [f - 1, f, f + 1] {
            let (form, helper) = (form_of_length(length as usize), helper_of_length(length as usize));
            readings.push(Reading { asked: Asked::Form, f, input: form.clone() });
            readings.push(Reading { asked: Asked::Helper, f, input: helper });
            readings.push(Reading { asked: Asked::Assign, f, input: form });
        }
    }
    readings
}
