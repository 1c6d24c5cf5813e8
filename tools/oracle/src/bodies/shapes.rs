//! Records for each rule of Own and In-body.

use super::slots::{
    complex_binding, deadlocked, deadlocked_then, empty, growing, lambda_of, let_body, long_name, name_binding, uses, value,
    AROUND,
};
use crate::cases::{atom, call, cons, form_of, let_of, nil, number, var};
use crate::orders::shapes::{bound, name_of, of_needs};
use crate::records::{Binding, Body, Hint, Kind, Let, Sexp};
use crate::sexps::shapes::{integer, list, named, text};

pub const KINDS: [Kind; 3] = [Kind::Parallel, Kind::Sequential, Kind::Assign];

fn around() -> Sexp {
    named(AROUND)
}

fn tailed(elements: Vec<Body>, tail: Body) -> Body {
    Body::BC(0, elements, Some(Box::new(tail)))
}

/// Records that go no level down: with the name that is bound around them, with another, and with none.
fn leaves() -> Vec<Body> {
    let sexps = [around(), atom("other"), nil(), integer(b"a"), text(b""), cons(around(), around())];
    let mut all: Vec<Body> = sexps.iter().map(|sexp| Body::BV(sexp.clone())).collect();
    all.extend(sexps.iter().map(|sexp| Body::BQ(sexp.clone())));
    all.push(Body::BM(0, Box::new(form_of(value(AROUND)))));
    all.push(Body::BM(0, Box::new(form_of(let_body(Kind::Parallel, vec![name_binding(b"m", empty())], var("m"))))));
    all.push(Body::BM(0, Box::new(form_of(deadlocked()))));
    all
}

fn calls() -> Vec<Body> {
    let u = || value(AROUND);
    let own = || growing(2);
    let second = || lambda_of(around(), u(), around(), call(vec![u(), own(), u()]));
    vec![
        call(vec![]),
        call(vec![u()]),
        call(vec![u(), u()]),
        call(vec![u(), u(), u()]),
        tailed(vec![], u()),
        tailed(vec![u()], u()),
        tailed(vec![u(), u()], call(vec![u(), u()])),
        call(vec![own(), own()]),
        call(vec![call(vec![u(), u()]), u()]),
        call(vec![second(), u()]),
        call(vec![u(), second()]),
        tailed(vec![second(), second()], second()),
        call(vec![Body::BQ(around()), Body::BQ(around())]),
    ]
}

fn let_with(kind: Kind, bindings: Vec<Binding>, body: Body) -> Vec<Body> {
    let plain = let_of(kind, bindings, body);
    let hints = [Hint::NoChoice, Hint::Inline(0), Hint::NonInline(0)];
    let hinted = |hint: Hint| Let { hint, keyword: Some(0), ..plain.clone() };
    let mut all = vec![Let { keyword: Some(0), ..plain.clone() }];
    all.extend(hints.into_iter().map(hinted));
    all.push(plain);
    all.into_iter().map(|data| Body::BL(Box::new(data))).collect()
}

fn lets(kind: Kind) -> Vec<Body> {
    let x = |body| complex_binding(atom("x"), body);
    let y = |body| complex_binding(atom("y"), body);
    let xy = || cons(atom("x"), atom("y"));
    let all = vec![
        (vec![], value(AROUND)),
        (vec![], call(vec![growing(2), lambda_of(nil(), empty(), atom("z"), var("z"))])),
        (vec![name_binding(b"x", value(AROUND))], var("x")),
        (vec![x(value(AROUND))], var("x")),
        (vec![x(growing(2))], call(vec![var("x"), var("x"), growing(2)])),
        (vec![name_binding(b"x", growing(2)), y(value(AROUND))], call(vec![var("f"), var("x"), var("y"), value(AROUND)])),
        (vec![y(var("x")), x(number(1))], call(vec![var("y"), var("y"), var("x")])),
        (vec![x(number(1)), y(var("x"))], call(vec![var("y"), var("x"), var("y")])),
        (vec![x(number(1)), x(number(2))], var("x")),
        (vec![name_binding(b"x", number(1)), name_binding(b"x", var("x")), x(number(1))], call(vec![var("x"), var("x")])),
        (vec![x(number(1)), name_binding(b"y", var("x"))], call(vec![var("y"), var("x"), var("y")])),
        (vec![complex_binding(cons(around(), xy()), number(1))], call(vec![value(AROUND), value(AROUND), var("x"), var("y")])),
        (
            vec![complex_binding(xy(), value(AROUND)), complex_binding(cons(atom("z"), atom("z")), var("x"))],
            call(vec![var("z"), var("z")]),
        ),
        (
            vec![x(number(1))],
            lambda_of(cons(atom("x"), around()), call(vec![var("x"), var("x"), value(AROUND)]), nil(), var("x")),
        ),
        (vec![x(lambda_of(nil(), empty(), atom("z"), growing(1)))], lambda_of(nil(), empty(), atom("x"), var("x"))),
        (vec![x(let_body(kind, vec![name_binding(b"z", value(AROUND))], var("z")))], let_body(kind, vec![y(var("x"))], var("y"))),
    ];
    all.into_iter().map(|(bindings, body)| let_body(kind, bindings, body)).collect()
}

fn lambdas() -> Vec<Body> {
    let u = || value(AROUND);
    let y_let = |body| let_body(Kind::Parallel, vec![name_binding(b"y", empty())], body);
    vec![
        lambda_of(nil(), empty(), nil(), empty()),
        lambda_of(around(), u(), nil(), u()),
        lambda_of(cons(around(), around()), call(vec![u(), u()]), around(), u()),
        lambda_of(list(vec![atom("quote"), around()], integer(b"\x00")), u(), nil(), u()),
        lambda_of(list(vec![atom("qq"), around()], nil()), u(), list(vec![atom("qq"), atom("z")], nil()), var("z")),
        lambda_of(cons(atom("q"), around()), u(), cons(atom("q"), atom("z")), var("z")),
        lambda_of(nil(), empty(), cons(atom("x"), cons(atom("y"), atom("x"))), call(vec![var("x"), var("x"), var("y"), u()])),
        lambda_of(nil(), empty(), nil(), y_let(call(vec![var("y"), var("y"), u()]))),
        lambda_of(nil(), y_let(var("y")), nil(), y_let(var("y"))),
        lambda_of(nil(), lambda_of(around(), u(), atom("z"), y_let(var("y"))), nil(), empty()),
        lambda_of(nil(), empty(), atom("x"), lambda_of(atom("x"), var("x"), atom("y"), call(vec![var("x"), var("x"), var("y")]))),
    ]
}

/// Every rule on every kind of record, each with what it is.
pub fn rules() -> Vec<(String, Body)> {
    let mut all = Vec::new();
    let mut add = |what: &str, bodies: Vec<Body>| {
        all.extend(bodies.into_iter().enumerate().map(|(index, body)| (format!("{what} {index}"), body)));
    };
    add("leaf", leaves());
    add("BC", calls());
    add("parallel let", lets(Kind::Parallel));
    add("sequential let", lets(Kind::Sequential));
    add("assign", lets(Kind::Assign));
    add("BF", lambdas());
    all
}

/// Lets with each hint, with and without a keyword.
pub fn hinted() -> Vec<Body> {
    let x = || complex_binding(atom("x"), value(AROUND));
    KINDS.iter().flat_map(|kind| let_with(*kind, vec![x(), name_binding(b"y", empty())], var("x"))).collect()
}

/// Patterns with `@`, repeated names, the empty name, `q` and `quote`, and such that draw nothing.
fn patterns() -> Vec<Sexp> {
    let names = |names: &[&str], end| list(names.iter().map(|name| atom(name)).collect(), end);
    vec![
        atom("@"),
        names(&["@", "x"], atom("y")),
        names(&["x", "@", "@"], atom("x")),
        names(&["x", "x", "x"], nil()),
        names(&["", "x"], atom("")),
        names(&["a", "q", "x"], nil()),
        names(&["q", "x"], nil()),
        names(&["quote", "x"], integer(b"\x00")),
        names(&["quote", "x", "x"], nil()),
        names(&["qq", "x"], nil()),
        integer(b"x"),
        text(b"x"),
        nil(),
    ]
}

/// Each pattern in each place that draws names.
pub fn drawn() -> Vec<Body> {
    let used = || call(vec![var("x"), var("x"), var("@"), value(b""), var("q")]);
    let mut all = Vec::new();
    for pattern in patterns() {
        for kind in KINDS {
            all.push(let_body(kind, vec![complex_binding(pattern.clone(), empty())], used()));
        }
        let two = vec![complex_binding(atom("x"), empty()), complex_binding(pattern.clone(), empty())];
        all.push(let_body(Kind::Parallel, two.clone(), used()));
        all.push(let_body(Kind::Assign, two, used()));
        all.push(lambda_of(nil(), empty(), pattern.clone(), used()));
        all.push(lambda_of(pattern, used(), nil(), used()));
    }
    for name in ["@", "", "x", "q"] {
        for kind in KINDS {
            all.push(let_body(kind, vec![name_binding(name.as_bytes(), empty()), name_binding(b"x", var(name))], used()));
            all.push(let_body(
                kind,
                vec![name_binding(name.as_bytes(), empty()), name_binding(name.as_bytes(), empty())],
                used(),
            ));
        }
    }
    all
}

/// A name of so many bytes in each place that draws names.
pub fn long(length: usize) -> Vec<Body> {
    let name = vec![b'n'; length];
    let sexp = || named(&name);
    vec![
        long_name(length),
        let_body(Kind::Parallel, vec![name_binding(b"x", empty()), complex_binding(sexp(), empty())], empty()),
        let_body(Kind::Sequential, vec![name_binding(&name, empty()), name_binding(b"x", empty())], empty()),
        let_body(Kind::Assign, vec![complex_binding(cons(atom("x"), sexp()), empty())], empty()),
        let_body(Kind::Assign, vec![name_binding(&name, empty())], empty()),
        let_body(Kind::Assign, vec![complex_binding(sexp(), empty()), name_binding(b"x", var("x"))], empty()),
        lambda_of(nil(), empty(), sexp(), empty()),
        lambda_of(sexp(), value(&name), nil(), empty()),
    ]
}

/// Assigns that read otherwise when they are taken a second time: another order, or none.
pub fn otherwise() -> Vec<Body> {
    let x = |body| complex_binding(atom("x"), body);
    let y = |body| complex_binding(atom("y"), body);
    let assign = |bindings, body| let_body(Kind::Assign, bindings, body);
    vec![
        deadlocked_then(),
        assign(vec![name_binding(b"w", var("x")), x(empty())], var("w")),
        assign(vec![name_binding(b"w", var("x")), y(var("w")), x(empty())], call(vec![var("y"), var("y"), var("w")])),
        assign(vec![x(empty()), name_binding(b"w", var("x")), y(var("x"))], call(vec![var("y"), var("y"), var("w")])),
        assign(vec![y(var("x")), name_binding(b"x", var("z")), complex_binding(atom("z"), empty())], var("y")),
        assign(vec![complex_binding(cons(atom("q"), atom("x")), empty()), y(var("x"))], var("y")),
        assign(vec![x(var("x")), x(empty()), y(var("x"))], var("y")),
        assign(vec![x(empty()), x(var("x")), x(var("x"))], var("x")),
        assign(vec![complex_binding(atom("q"), var("x")), x(Body::BQ(atom("z")))], empty()),
    ]
}

/// An assign whose Name binding mentions the name that its other binding gets, if that is drawn as this number.
pub fn foreseen(number: u64) -> Body {
    let made = format!("y_$_{number}");
    let other = complex_binding(atom("y"), var("w"));
    let_body(Kind::Assign, vec![name_binding(b"w", value(made.as_bytes())), other], var("y"))
}

/// Captures that hold lets, lambdas and assigns, deadlocked ones too.
pub fn captured() -> Vec<Body> {
    let hold = |captures| lambda_of(named(AROUND), captures, nil(), value(AROUND));
    let then = || lambda_of(nil(), empty(), nil(), deadlocked_then());
    let now = || lambda_of(nil(), empty(), nil(), deadlocked());
    vec![
        hold(growing(3)),
        hold(deadlocked()),
        hold(deadlocked_then()),
        hold(now()),
        hold(then()),
        hold(call(vec![then(), value(AROUND)])),
        hold(let_body(Kind::Sequential, vec![name_binding(b"x", value(AROUND)), name_binding(b"y", var("x"))], var("y"))),
        hold(let_body(Kind::Assign, vec![name_binding(b"x", now())], empty())),
        hold(lambda_of(named(AROUND), hold(value(AROUND)), nil(), growing(2))),
        hold(long_name(253)),
        hold(lambda_of(nil(), empty(), nil(), long_name(253))),
    ]
}

/// So many lambdas around a body, each with args or without.
pub fn nested_lambdas(count: usize, args: &Sexp, inner: Body) -> Body {
    (0..count).fold(inner, |inner, _| lambda_of(nil(), empty(), args.clone(), inner))
}

/// What stands in lambdas.
pub fn in_lambdas() -> Vec<Body> {
    let assign =
        let_body(Kind::Assign, vec![complex_binding(atom("y"), var("x")), complex_binding(atom("x"), empty())], var("y"));
    let sequential =
        let_body(Kind::Sequential, vec![name_binding(b"x", empty()), complex_binding(atom("y"), var("x"))], var("y"));
    vec![var("x"), growing(1), assign, sequential, deadlocked_then(), lambda_of(atom("x"), growing(1), nil(), empty())]
}

/// A sequential let of so many bindings, each of which uses the one before.
pub fn sequential(count: usize, complex: bool) -> Body {
    let binding = |index: usize| {
        let body = if index == 0 { empty() } else { value(&name_of(index - 1)) };
        bound(complex as usize, &name_of(index), body)
    };
    let body = if count == 0 { empty() } else { value(&name_of(count - 1)) };
    let_body(Kind::Sequential, (0..count).map(binding).collect(), body)
}

/// An assign by what its bindings need, whose body uses the first and the last of them.
pub fn assign(needs: &[Vec<usize>], way: Option<usize>) -> Body {
    let last = needs.len().saturating_sub(1);
    let_body(Kind::Assign, of_needs(needs, way), call(vec![empty(), value(&name_of(0)), value(&name_of(last))]))
}

/// Records in each other, so many levels deep.
pub fn deep(levels: usize) -> Vec<Body> {
    let grow = |step: fn(Body) -> Body| (1..levels).fold(value(b"x"), |inner, _| step(inner));
    vec![
        grow(|inner| call(vec![inner])),
        grow(|inner| call(vec![empty(), inner])),
        grow(|inner| Body::BC(0, vec![], Some(Box::new(inner)))),
        grow(|inner| let_body(Kind::Parallel, vec![name_binding(b"y", inner)], empty())),
        grow(|inner| let_body(Kind::Parallel, vec![name_binding(b"x", empty())], inner)),
        grow(|inner| let_body(Kind::Sequential, vec![complex_binding(atom("x"), empty())], inner)),
        grow(|inner| let_body(Kind::Assign, vec![complex_binding(atom("x"), empty())], inner)),
        grow(|inner| let_body(Kind::Assign, vec![name_binding(b"y", inner)], empty())),
    ]
}

/// Refused ones, and one that grows, one after the other in each kind of record.
pub fn in_sequence(parts: &[Body]) -> Vec<Body> {
    let bindings = |kind| {
        let pattern = |index: usize| named(&name_of(index));
        let binding = |(index, part): (usize, &Body)| complex_binding(pattern(index), part.clone());
        let last = parts.len() - 1;
        let_body(kind, parts[..last].iter().enumerate().map(binding).collect(), parts[last].clone())
    };
    let (first, rest) = parts.split_first().expect("some parts");
    vec![
        call(parts.to_vec()),
        Body::BC(0, rest.to_vec(), Some(Box::new(first.clone()))),
        bindings(Kind::Parallel),
        bindings(Kind::Sequential),
        bindings(Kind::Assign),
        lambda_of(nil(), first.clone(), nil(), call(rest.to_vec())),
        parts.iter().rev().fold(empty(), |inner, part| call(vec![part.clone(), inner])),
    ]
}

/// So many uses of the name around, in element 0 of a call, before another element that uses it.
pub fn put_back(first: usize, second: usize) -> Body {
    call(vec![uses(AROUND, first), uses(AROUND, second), value(AROUND)])
}
