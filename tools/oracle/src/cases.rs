//! The worked cases of the pass's specification, and what forms are built with.

use crate::answers::{Call, Case};
use crate::records::{Binding, Body, Form, Hint, Kind, Lambda, Let, Pattern, Record, Sexp};
use std::rc::Rc;

/// The location of every assign here.
const ASSIGN_AT: u32 = 7;

pub fn atom(name: &str) -> Sexp {
    Sexp::SA(0, name.as_bytes().to_vec())
}

pub fn cons(head: Sexp, tail: Sexp) -> Sexp {
    Sexp::SC(0, Rc::new(head), Rc::new(tail))
}

pub fn nil() -> Sexp {
    Sexp::SN(0)
}

pub fn var(name: &str) -> Body {
    Body::BV(atom(name))
}

pub fn number(byte: u8) -> Body {
    Body::BV(Sexp::SI(0, vec![byte]))
}

pub fn call(elements: Vec<Body>) -> Body {
    Body::BC(0, elements, None)
}

pub fn named(name: &str, body: Body) -> Binding {
    Binding { loc: 0, name_loc: 0, pattern: Pattern::Name(name.as_bytes().to_vec()), body }
}

pub fn complex(sexp: Sexp, body: Body) -> Binding {
    Binding { loc: 0, name_loc: 0, pattern: Pattern::Complex(sexp), body }
}

pub fn let_of(kind: Kind, bindings: Vec<Binding>, body: Body) -> Let {
    let loc = if kind == Kind::Assign { ASSIGN_AT } else { 0 };
    Let { kind, loc, keyword: None, hint: Hint::Absent, bindings, body }
}

pub fn body_of(data: Let) -> Body {
    Body::BL(Box::new(data))
}

pub fn lambda(args: Sexp, body: Body) -> Body {
    Body::BF(Box::new(Lambda { loc: 0, keyword: None, capture_args: nil(), captures: number(0), args, body }))
}

pub fn form_of(body: Body) -> Form {
    Form { loc: 0, rest: Vec::new(), args: nil(), helpers: Vec::new(), body }
}

fn case(call: Call, counter: u64, input: Vec<u8>) -> Case {
    Case { call, f: 1024, work: 262144, counter, buffer: 256, input }
}

fn whole(body: Body) -> Case {
    case(Call::Whole, 0, form_of(body).bytes())
}

fn assign(bindings: Vec<Binding>, body: Body) -> Let {
    let_of(Kind::Assign, bindings, body)
}

/// The CF that the specification gives byte by byte.
fn given() -> Form {
    let x = |loc| Sexp::SA(loc, b"x".to_vec());
    Form { loc: 1, args: x(2), ..form_of(Body::BV(x(3))) }
}

fn names() -> Vec<Case> {
    let name = |counter, name: &[u8]| case(Call::Name, counter, name.to_vec());
    vec![name(0, b"x"), name(41, b""), name(0, &[b'a'; 251]), name(0, &[b'a'; 252])]
}

fn lets() -> Vec<Case> {
    let pattern = cons(atom("a"), cons(atom("q"), cons(atom("b"), nil())));
    let inner = body_of(let_of(Kind::Parallel, vec![named("y", number(2))], var("y")));
    let around = let_of(Kind::Parallel, vec![named("z", number(1))], lambda(nil(), inner));
    vec![
        case(Call::Whole, 0, given().bytes()),
        whole(body_of(let_of(Kind::Sequential, vec![named("x", number(1)), named("y", var("x"))], var("y")))),
        whole(body_of(let_of(Kind::Parallel, vec![complex(cons(atom("x"), atom("x")), number(1))], var("x")))),
        whole(body_of(let_of(Kind::Parallel, vec![complex(pattern, number(1))], var("b")))),
        whole(body_of(let_of(Kind::Parallel, vec![named("f", number(1))], call(vec![var("f"), var("f")])))),
        case(Call::Children, 0, form_of(body_of(around.clone())).bytes()),
        whole(body_of(around)),
    ]
}

fn assigns() -> Vec<Case> {
    let x = |body| complex(atom("x"), body);
    let forward = assign(vec![complex(atom("y"), var("x")), x(number(1))], var("y"));
    let twice = assign(vec![x(var("x")), x(number(1))], var("x"));
    let itself = assign(vec![x(var("x"))], var("x"));
    let number_97 = assign(vec![complex(atom("a"), number(97))], var("a"));
    let empty = assign(vec![], var("a"));
    let mut cases = Vec::new();
    for data in [forward, twice, itself, number_97, empty] {
        cases.push(case(Call::Order, 0, data.bytes()));
        cases.push(whole(body_of(data)));
    }
    cases
}

/// The worked cases, starred or not. Where the specification speaks of an assign, both Order and Whole form are asked.
pub fn worked() -> Vec<Case> {
    [names(), lets(), assigns()].concat()
}

/// Whole forms at which the pass does what its comments and the language do not lead one to expect.
pub fn differences() -> Vec<(&'static str, Form)> {
    let x = |body| complex(atom("x"), body);
    let quoted = |sexp| Body::BQ(sexp);
    let alone = |name: &str, body: Body| form_of(body_of(assign(vec![complex(atom(name), body)], var(name))));
    let rebound = body_of(let_of(Kind::Parallel, vec![named("x", number(1))], number(1)));
    let pattern = complex(cons(atom("q"), atom("x")), number(1));
    vec![
        ("a quoted atom is renamed", Form { args: atom("x"), ..form_of(quoted(atom("x"))) }),
        (
            "a Name binding in assign misses renamed names",
            form_of(body_of(assign(vec![x(number(1)), named("y", var("x"))], var("y")))),
        ),
        (
            "a name behind q in a pattern is renamed in the body only",
            form_of(body_of(let_of(Kind::Parallel, vec![pattern], var("x")))),
        ),
        ("a number counts as a use", alone("a", number(97))),
        ("a quoted word counts as a use", alone("x", quoted(atom("x")))),
        ("so does a quoted string", alone("x", Body::BV(Sexp::SQ(0, b'"', b"x".to_vec())))),
        ("a call's head counts as a use", alone("x", call(vec![var("x")]))),
        ("a name bound again inside counts as a use", alone("x", rebound)),
        ("a word that to_sexp writes counts as a use", alone("q", quoted(nil()))),
        ("so does let", alone("let", body_of(let_of(Kind::Parallel, vec![], number(1))))),
        ("the second x reads itself", form_of(body_of(assign(vec![x(var("x")), x(number(1))], var("x"))))),
    ]
}
