//! Bodies that count as a use of a name, and bodies that mention it and do not.

use crate::cases::{atom, body_of, call, complex, cons, lambda, let_of, named, nil, number, var};
use crate::records::{Binding, Body, Kind, Lambda, Pattern, Sexp};

pub const KINDS: [Kind; 3] = [Kind::Parallel, Kind::Sequential, Kind::Assign];

fn value(name: &[u8]) -> Body {
    Body::BV(leaf(name))
}

pub fn leaf(name: &[u8]) -> Sexp {
    Sexp::SA(0, name.to_vec())
}

pub fn quoted(name: &[u8]) -> Sexp {
    Sexp::SQ(0, b'"', name.to_vec())
}

/// The number of these bytes, if they are the shortest for it; else the atom.
pub fn integer(name: &[u8]) -> Sexp {
    let shortest = match name {
        [] => false,
        [0x00, second, ..] => *second >= 0x80,
        [0xff, second, ..] => *second < 0x80,
        _ => true,
    };
    if shortest {
        Sexp::SI(0, name.to_vec())
    } else {
        leaf(name)
    }
}

fn bound(name: &[u8], body: Body) -> Binding {
    Binding { pattern: Pattern::Name(name.to_vec()), ..named("", body) }
}

/// A lambda with these capture args and captures.
pub fn capturing(capture_args: Sexp, captures: Body) -> Body {
    let lambda = Lambda { loc: 0, keyword: None, capture_args, captures, args: nil(), body: number(1) };
    Body::BF(Box::new(lambda))
}

/// Each way for a name to count as used.
pub const USES: [fn(&[u8]) -> Body; 20] = [
    |name| value(name),
    |name| Body::BV(quoted(name)),
    |name| Body::BV(integer(name)),
    |name| Body::BQ(leaf(name)),
    |name| Body::BQ(cons(nil(), cons(integer(name), nil()))),
    |name| Body::BV(cons(cons(quoted(name), nil()), nil())),
    |name| call(vec![value(name), number(1)]),
    |name| call(vec![var("f"), number(1), value(name)]),
    |name| Body::BC(0, vec![var("f")], Some(Box::new(value(name)))),
    |name| Body::BC(0, vec![], Some(Box::new(Body::BQ(quoted(name))))),
    |name| body_of(let_of(Kind::Parallel, vec![bound(name, number(1))], number(1))),
    |name| body_of(let_of(Kind::Parallel, vec![bound(name, number(1))], value(name))),
    |name| body_of(let_of(Kind::Sequential, vec![named("", number(1)), complex(cons(nil(), leaf(name)), number(1))], number(1))),
    |name| body_of(let_of(Kind::Assign, vec![complex(leaf(name), number(1))], value(name))),
    |name| body_of(let_of(Kind::Assign, vec![bound(b"w", value(name))], number(1))),
    |name| body_of(let_of(Kind::Sequential, vec![], value(name))),
    |name| lambda(leaf(name), number(1)),
    |name| lambda(cons(atom("w"), leaf(name)), value(name)),
    |name| lambda(nil(), call(vec![value(name)])),
    // truthy, so that the capture args are written
    |name| capturing(cons(nil(), leaf(name)), number(1)),
];

/// Each way for a name to be mentioned and not counted.
pub const MENTIONS: [fn(&[u8]) -> Body; 4] = [
    |name| capturing(nil(), value(name)),
    |name| capturing(atom("w"), call(vec![value(name), Body::BQ(leaf(name))])),
    |name| lambda(nil(), capturing(nil(), body_of(let_of(Kind::Parallel, vec![bound(name, number(1))], value(name))))),
    // a longer name, and the name cut in two
    |name| call(vec![value(&[name, b"'"].concat()[..(name.len() + 1).min(255)]), value(&name[..name.len() / 2])]),
];

/// The words that `to_sexp` writes, each with the bodies for which it does.
pub fn writing() -> Vec<(&'static [u8], Vec<Body>)> {
    let empty = |kind| body_of(let_of(kind, vec![], number(1)));
    let [parallel, sequential, assign] = KINDS;
    let truthy = || capturing(atom("w"), number(1));
    vec![
        (b"q", vec![Body::BQ(nil()), call(vec![Body::BQ(atom("w"))])]),
        (b"let", vec![empty(parallel), body_of(let_of(parallel, vec![named("w", number(1))], number(1)))]),
        (b"let*", vec![empty(sequential), body_of(let_of(sequential, vec![named("w", number(1))], number(1)))]),
        (b"assign", vec![empty(assign), body_of(let_of(assign, vec![named("w", number(1))], number(1)))]),
        (b"lambda", vec![lambda(nil(), number(1)), truthy()]),
        (b"&", vec![truthy(), capturing(cons(nil(), nil()), number(1))]),
        (b"&rest", vec![Body::BC(0, vec![], Some(Box::new(number(1)))), Body::BC(0, vec![number(1)], Some(Box::new(number(1))))]),
    ]
}

/// Capture args that are truthy and that are not, with the name that the latter would give.
pub fn capture_args() -> Vec<Sexp> {
    let mut all = vec![nil(), cons(nil(), nil()), cons(Sexp::SI(0, vec![0]), nil())];
    for bytes in [&b""[..], b"\x00", b"\x00\x00", b"\x00\x01", b"w"] {
        all.extend([leaf(bytes), quoted(bytes)]);
    }
    all.extend([&b"\x00"[..], b"\x01", b"\x00\x80", b"\xff", b"w"].map(|bytes| Sexp::SI(0, bytes.to_vec())));
    all
}
