//! S records at the edges of the rules: the words, with each number of elements and each end, in each place; patterns; deep ones.

use crate::cases::{atom, cons, nil};
use crate::records::{Bytes, Loc, Sexp};
use std::rc::Rc;

/// The words that Substitute looks for.
pub const WORDS: [&str; 4] = ["q", "quote", "qq", "unquote"];

pub fn text(text: &[u8]) -> Sexp {
    Sexp::SQ(0, b'"', text.to_vec())
}

pub fn integer(bytes: &[u8]) -> Sexp {
    Sexp::SI(0, bytes.to_vec())
}

pub fn named(name: &[u8]) -> Sexp {
    Sexp::SA(0, name.to_vec())
}

/// A list of these elements, closed by an end.
pub fn list(elements: Vec<Sexp>, end: Sexp) -> Sexp {
    elements.into_iter().rev().fold(end, |tail, head| cons(head, tail))
}

/// What closes a proper list.
pub fn closers() -> Vec<Sexp> {
    vec![nil(), integer(b"\x00"), atom(""), text(b""), Sexp::SQ(0, b'\'', Bytes::new())]
}

/// What is easily taken for it.
pub fn other_ends() -> Vec<Sexp> {
    vec![integer(b"\x01"), integer(b"\x00\x80"), integer(b"\xff"), atom("\0"), text(b"\0"), atom("x"), text(b"x"), integer(b"x")]
}

/// Records of every kind, with the name `x` where it goes by the map, and where it does not.
pub fn elements() -> Vec<Sexp> {
    let worded = |word: &str, element| list(vec![atom(word), element], nil());
    let unquoted = worded("unquote", atom("x"));
    vec![
        atom("x"),
        atom("unknown"),
        atom(""),
        atom("@"),
        atom("quote"),
        nil(),
        integer(b"x"),
        text(b"x"),
        cons(atom("x"), atom("y")),
        list(vec![atom("x"), atom("y")], nil()),
        worded("q", atom("x")),
        worded("quote", atom("x")),
        worded("qq", atom("x")),
        unquoted.clone(),
        worded("qq", unquoted.clone()),
        worded("unquote", worded("qq", unquoted.clone())),
        worded("qq", worded("qq", unquoted.clone())),
        worded("unquote", unquoted),
    ]
}

/// A word's list with so many elements.
pub fn worded(word: &str, count: usize, end: Sexp) -> Sexp {
    let names = ["x", "y", "z"];
    let mut elements = vec![atom(word)];
    elements.extend(names[..count].iter().map(|name| atom(name)));
    list(elements, end)
}

/// A record in each place that matters to the rules.
pub fn placed(inner: &Sexp) -> Vec<Sexp> {
    let worded = |word: &str, element: Sexp| list(vec![atom(word), element], nil());
    let x = || atom("x");
    let s = || inner.clone();
    vec![
        list(vec![s()], nil()),
        cons(x(), s()),
        list(vec![x(), atom("y")], s()),
        cons(s(), atom("y")),
        list(vec![x(), s(), x()], atom("x")),
        worded("qq", s()),
        worded("qq", cons(x(), s())),
        worded("qq", list(vec![x(), atom("y")], s())),
        worded("qq", list(vec![s(), x()], s())),
        worded("qq", worded("qq", s())),
        worded("qq", worded("unquote", s())),
        worded("qq", worded("unquote", worded("qq", s()))),
        worded("unquote", s()),
        list(vec![x(), atom("unquote"), s()], nil()),
        worded("quote", s()),
        cons(atom("q"), s()),
        cons(atom("quote"), s()),
        cons(atom("qq"), s()),
        cons(atom("unquote"), s()),
        cons(text(b"quote"), cons(s(), nil())),
        cons(text(b"q"), s()),
        list(vec![atom("quote2"), s()], nil()),
        list(vec![atom("unquot"), s()], nil()),
    ]
}

/// Patterns: no name, one, several, repeated ones, `@`, the empty name, the words, and what draws nothing.
pub fn patterns() -> Vec<Sexp> {
    let worded = |word: &str, element| list(vec![atom(word), element], nil());
    let names = |names: &[&str], end| list(names.iter().map(|name| atom(name)).collect(), end);
    vec![
        nil(),
        integer(b"x"),
        text(b"x"),
        atom("x"),
        atom("@"),
        atom(""),
        atom("@@"),
        atom("q"),
        names(&["x"], nil()),
        names(&["x"], atom("x")),
        names(&["x", "y", "x", "y", "x"], nil()),
        names(&["x", "y"], atom("z")),
        names(&["@", "x", "y"], nil()),
        names(&["@", "@"], atom("@")),
        names(&["x", "@"], atom("y")),
        names(&["", "x", ""], nil()),
        cons(cons(atom("x"), atom("y")), cons(atom("y"), atom("x"))),
        cons(cons(cons(atom("z"), atom("y")), atom("x")), nil()),
        list(vec![atom("x"), integer(b"y"), text(b"z"), nil(), atom("z")], nil()),
        names(&["a", "q", "b"], nil()),
        names(&["q", "x"], atom("y")),
        worded("quote", atom("x")),
        worded("qq", worded("unquote", atom("x"))),
        names(&WORDS, nil()),
        names(&["quote", "x", "y"], nil()),
        names(&["x_$_1", "x"], nil()),
        text(b"@"),
        named(b"\x00\xff\x80"),
    ]
}

/// So many SC in each other: on the right, on the left, on both sides in turn.
pub fn deep(depth: usize) -> Vec<Sexp> {
    let names = ["x", "y", "z", "q", "w"];
    let name = |level: usize| atom(names[level % names.len()]);
    let grow = |right: fn(usize) -> bool| {
        (0..depth).fold(atom("x"), |inner, level| match right(level) {
            true => cons(name(level), inner),
            false => cons(inner, name(level)),
        })
    };
    vec![grow(|_| true), grow(|_| false), grow(|level| level % 2 == 0)]
}

/// A tree of 2 to the power of `depth` leaves.
pub fn full(depth: usize, leaf: &Sexp) -> Sexp {
    (0..depth).fold(leaf.clone(), |part, _| cons(part.clone(), part))
}

/// The same record, every L of it its own, from `next` on.
pub fn placed_from(sexp: &Sexp, next: &mut Loc) -> Sexp {
    let loc = *next;
    *next = next.wrapping_add(1);
    match sexp {
        Sexp::SN(_) => Sexp::SN(loc),
        Sexp::SC(_, head, tail) => {
            let head = placed_from(head, next);
            Sexp::SC(loc, Rc::new(head), Rc::new(placed_from(tail, next)))
        }
        Sexp::SI(_, number) => Sexp::SI(loc, number.clone()),
        Sexp::SQ(_, quote, text) => Sexp::SQ(loc, *quote, text.clone()),
        Sexp::SA(_, name) => Sexp::SA(loc, name.clone()),
    }
}
