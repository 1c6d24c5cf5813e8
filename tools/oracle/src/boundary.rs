//! Inputs at the limits of the records: levels, sequential lets, counts, SC and BF depth, long names.

use crate::answers::Call;
use crate::cases::{atom, body_of, complex, cons, form_of, lambda, let_of, named, nil, number, var};
use crate::random::Random;
use crate::reads::Asked;
use crate::records::{Binding, Body, Bytes, Form, Head, Helper, Kind, Lambda, Let, Pattern, Record, Sexp};

/// An input near a limit, for a call that takes records.
pub fn input(random: &mut Random, call: Call) -> Bytes {
    match call {
        Call::Order => assign(random).bytes(),
        Call::Helper => helper(random).bytes(),
        _ => form(random).bytes(),
    }
}

/// The same by the record asked for.
pub fn of_kind(random: &mut Random, asked: Asked) -> Bytes {
    match asked {
        Asked::Form => input(random, Call::Whole),
        Asked::Helper => input(random, Call::Helper),
        Asked::Assign => input(random, Call::Order),
    }
}

fn head(name: &str) -> Head {
    Head { loc: 0, name: name.as_bytes().to_vec(), rest: Bytes::new() }
}

fn assign(random: &mut Random) -> Let {
    match random.below(4) {
        0 => many_bindings(random, Kind::Assign),
        1 => let_of(Kind::Assign, vec![complex(deep_cons(random), number(1))], var("x")),
        2 => let_of(Kind::Assign, vec![complex(atom("y"), deep_body(random, 1))], var("y")),
        _ => macro_assign(random),
    }
}

fn helper(random: &mut Random) -> Helper {
    let count = 64 + random.below(2);
    match random.below(6) {
        0 => Helper::HN(head("n"), vec![Helper::HR(head("")); count]),
        1 => deep_helper(random),
        2 => Helper::HD(head("d"), true, deep_cons(random), var("x")),
        3 => Helper::HC(head("c"), deep_body(random, 1)),
        4 => Helper::HC(head("c"), long_names(random)),
        _ => Helper::HM(head("m"), nil(), macros(random)),
    }
}

fn form(random: &mut Random) -> Form {
    let count = 64 + random.below(2);
    match random.below(8) {
        0 => Form { helpers: vec![Helper::HR(head("")); count], ..form_of(var("x")) },
        1 => Form { args: deep_cons(random), ..form_of(var("x")) },
        2 => form_of(body_of(many_bindings(random, Kind::Parallel))),
        3 => form_of(Body::BC(0, vec![Body::BV(nil()); count], None)),
        4 | 5 => form_of(long_names(random)),
        6 => macros(random),
        _ => form_of(deep_body(random, 1)),
    }
}

fn many_bindings(random: &mut Random, kind: Kind) -> Let {
    let count = 64 + random.below(2);
    let binding = |index: usize| complex(Sexp::SI(0, vec![(index % 100) as u8]), Body::BV(nil()));
    let_of(kind, (0..count).map(binding).collect(), Body::BV(nil()))
}

/// 63 to 65 SC, one in the other, along the heads or the tails.
fn deep_cons(random: &mut Random) -> Sexp {
    let along_heads = random.one_in(2);
    (0..63 + random.below(3)).fold(atom("x"), |inner, _| match along_heads {
        true => cons(inner, nil()),
        false => cons(nil(), inner),
    })
}

/// A body that ends near level 32 when `above` records stand around it.
fn deep_body(random: &mut Random, above: usize) -> Body {
    let levels = 31 - above + random.below(3);
    match random.below(5) {
        0 => (1..levels).fold(var("x"), |inner, _| Body::BC(0, vec![inner], None)),
        1 => (1..levels).fold(var("x"), |inner, _| Body::BC(0, vec![], Some(Box::new(inner)))),
        2 => (1..levels).fold(var("x"), |inner, _| body_of(let_of(Kind::Parallel, vec![named("x", inner)], number(1)))),
        3 => sequential(random, levels),
        _ => lambdas(random),
    }
}

/// A sequential let of so many bindings, or two around each other; or one in captures, where it is only read.
fn sequential(random: &mut Random, levels: usize) -> Body {
    let one = |count: usize, body: Body| {
        let bindings: Vec<Binding> = (0..count).map(|_| named("x", number(1))).collect();
        body_of(let_of(Kind::Sequential, bindings, body))
    };
    match random.below(3) {
        0 => one(levels - 1 + random.below(2), var("x")),
        1 => one(0, one(levels - 2, var("x"))),
        _ => capturing(one(levels - 2 + random.below(2), var("x"))),
    }
}

fn capturing(captures: Body) -> Body {
    let lambda = Lambda { loc: 0, keyword: None, capture_args: nil(), captures, args: nil(), body: number(1) };
    Body::BF(Box::new(lambda))
}

fn lambdas(random: &mut Random) -> Body {
    let in_captures = random.one_in(2);
    (0..6 + random.below(2)).fold(var("x"), |inner, _| match in_captures {
        true => capturing(inner),
        false => lambda(atom("x"), inner),
    })
}

/// Namespaces, or macros and their forms, one in the other.
fn deep_helper(random: &mut Random) -> Helper {
    let levels = 30 + random.below(4);
    let space = |inner: Helper| Helper::HN(head("n"), vec![inner]);
    let a_macro = |inner: Helper| Helper::HM(head("m"), nil(), Form { helpers: vec![inner], ..form_of(number(1)) });
    let innermost = Helper::HR(head("r"));
    match random.one_in(2) {
        true => (1..levels).fold(innermost, |inner, _| space(inner)),
        false if levels.is_multiple_of(2) => (1..levels / 2).fold(space(innermost), |inner, _| a_macro(inner)),
        false => (0..levels / 2).fold(innermost, |inner, _| a_macro(inner)),
    }
}

/// An assign with a BM somewhere: in a binding body, in captures there, or where it is no fault.
fn macro_assign(random: &mut Random) -> Let {
    let a_macro = || Body::BM(0, Box::new(form_of(var("x"))));
    let bindings = |body: Body| vec![complex(atom("y"), number(1)), complex(atom("x"), body)];
    match random.below(4) {
        0 => let_of(Kind::Assign, bindings(a_macro()), var("y")),
        1 => let_of(Kind::Assign, bindings(capturing(a_macro())), a_macro()),
        2 => let_of(Kind::Assign, bindings(body_of(let_of(Kind::Parallel, vec![named("z", number(1))], a_macro()))), a_macro()),
        _ => let_of(Kind::Assign, bindings(number(1)), a_macro()),
    }
}

/// Such an assign in a form, in a macro's form or in a BM.
fn macros(random: &mut Random) -> Form {
    let form = form_of(body_of(macro_assign(random)));
    match random.below(4) {
        0 => form_of(Body::BM(0, Box::new(form))),
        1 => Form { helpers: vec![Helper::HM(head("m"), atom("x"), form)], ..form_of(var("x")) },
        _ => form,
    }
}

/// Lets that make names of about 255 bytes, once or twice.
fn long_names(random: &mut Random) -> Body {
    let long = vec![b'n'; 248 + random.below(8)];
    let pattern = match random.one_in(2) {
        true => Pattern::Name(long.clone()),
        false => Pattern::Complex(Sexp::SA(0, long.clone())),
    };
    let binding = Binding { pattern, ..named("", number(1)) };
    let uses = if random.one_in(2) { number(1) } else { Body::BV(Sexp::SA(0, long)) };
    let inner = body_of(let_of(Kind::Parallel, vec![binding], uses));
    match random.one_in(2) {
        true => inner,
        false => lambda(nil(), inner),
    }
}
