//! Records of every kind with one part that grows in the walk and one that is refused there, each in every place.

use crate::cases::{body_of, call, lambda, let_of, nil, var};
use crate::orders::shapes::bind;
use crate::records::{Binding, Body, Kind, Lambda, Pattern, Sexp};
use crate::sexps::shapes::{integer, list, named as atom_of};

/// The name that the scopes around a record bind: the empty one, which grows most.
pub const AROUND: &[u8] = b"";
/// The name that the first scope of a record itself binds.
pub const OWN: &[u8] = b"a";
/// A name that no made name of 255 bytes comes from.
pub const TOO_LONG: usize = 253;

/// What stands in a place.
#[derive(Clone, Debug, PartialEq, Eq)]
pub enum Fill {
    Plain,
    /// A let, or a list of names, that grows by itself.
    Grows(usize),
    /// So many uses of a name.
    Uses(&'static [u8], usize),
    /// A lambda whose capture args In-body makes shorter, two bytes each.
    Shrinks(usize),
    Refused(Bomb),
}

/// A way to make a part grow, and its name.
pub type Way = (&'static str, fn(usize) -> Fill);

/// What makes a part grow: a let or names of its own, uses of the name bound around the record, or of the one that it binds first.
pub const WAYS: [Way; 3] =
    [("growth", Fill::Grows), ("uses", |count| Fill::Uses(AROUND, count)), ("own uses", |count| Fill::Uses(OWN, count))];

/// What is refused, and when: by the first Own, by the first Own in a lambda, or by the second, which In-body takes there.
#[derive(Clone, Copy, Debug, PartialEq, Eq)]
pub enum Bomb {
    Deadlock,
    LongName,
    LambdaDeadlock,
    SecondDeadlock,
    SecondLongName,
    /// A name too long when Own takes it so often.
    LateLongName(usize),
}

pub const BOMBS: [Bomb; 5] = [Bomb::Deadlock, Bomb::SecondDeadlock, Bomb::LongName, Bomb::SecondLongName, Bomb::LambdaDeadlock];

impl Bomb {
    pub fn words(self) -> &'static str {
        match self {
            Bomb::Deadlock => "a deadlock",
            Bomb::LongName => "a name too long",
            Bomb::LambdaDeadlock => "a deadlock in a lambda",
            Bomb::SecondDeadlock => "a deadlock at the second reading",
            Bomb::SecondLongName => "a name too long the second time",
            Bomb::LateLongName(3) => "a name too long the third time",
            Bomb::LateLongName(_) => "a name too long later",
        }
    }
}

pub fn empty() -> Body {
    Body::BV(nil())
}

pub fn value(name: &[u8]) -> Body {
    Body::BV(atom_of(name))
}

pub fn name_binding(name: &[u8], body: Body) -> Binding {
    bind(Pattern::Name(name.to_vec()), body)
}

pub fn complex_binding(pattern: Sexp, body: Body) -> Binding {
    bind(Pattern::Complex(pattern), body)
}

pub fn let_body(kind: Kind, bindings: Vec<Binding>, body: Body) -> Body {
    body_of(let_of(kind, bindings, body))
}

/// A call whose elements behind the first use a name.
pub fn uses(name: &[u8], count: usize) -> Body {
    let mut elements = vec![empty()];
    elements.extend(vec![value(name); count]);
    call(elements)
}

/// A parallel let of one name that its body uses.
pub fn growing(count: usize) -> Body {
    let_body(Kind::Parallel, vec![name_binding(b"", empty())], uses(b"", count))
}

pub fn deadlocked() -> Body {
    let_body(Kind::Assign, vec![name_binding(b"x", var("x"))], empty())
}

/// Ordered as it stands; what Own makes of it is deadlocked.
pub fn deadlocked_then() -> Body {
    let x = |body| complex_binding(atom_of(b"x"), body);
    let_body(Kind::Assign, vec![x(var("x")), x(empty())], empty())
}

/// A let of a name of so many bytes.
pub fn long_name(length: usize) -> Body {
    let_body(Kind::Parallel, vec![name_binding(&vec![b'n'; length], empty())], empty())
}

/// How long a name is that can be made new once and not twice at a counter.
pub fn twice_too_long(counter: u64) -> usize {
    255 - 3 - (counter + 100).to_string().len()
}

fn bomb(bomb: Bomb, counter: u64) -> Body {
    match bomb {
        Bomb::Deadlock => deadlocked(),
        Bomb::LongName => long_name(TOO_LONG),
        Bomb::LambdaDeadlock => lambda_of(nil(), empty(), nil(), deadlocked()),
        Bomb::SecondDeadlock => lambda_of(nil(), empty(), nil(), deadlocked_then()),
        Bomb::SecondLongName => lambda_of(nil(), empty(), nil(), long_name(twice_too_long(counter))),
        Bomb::LateLongName(times) => {
            let longer = 3 + (counter + 100).to_string().len();
            lambda_of(nil(), empty(), nil(), long_name(255 - (times - 1) * longer))
        }
    }
}

pub fn lambda_of(capture_args: Sexp, captures: Body, args: Sexp, body: Body) -> Body {
    Body::BF(Box::new(Lambda { loc: 0, keyword: None, capture_args, captures, args, body }))
}

/// A lambda with so many capture args `(quote ())` that zero closes, which Substitute closes with nil.
fn shrinking(count: usize) -> Body {
    let quoted = list(vec![atom_of(b"quote"), nil()], integer(b"\x00"));
    lambda_of(list(vec![quoted; count], nil()), empty(), nil(), empty())
}

/// A body that stands in a place.
pub fn body_filled(fill: &Fill, counter: u64) -> Body {
    match fill {
        Fill::Plain => empty(),
        Fill::Grows(count) => growing(*count),
        Fill::Uses(name, count) => uses(name, *count),
        Fill::Shrinks(count) => shrinking(*count),
        Fill::Refused(what) => bomb(*what, counter),
    }
}

/// An S record in a place where names are drawn, or where they go by the map around.
pub fn sexp_filled(fill: &Fill, name: &[u8]) -> Sexp {
    match fill {
        Fill::Plain | Fill::Shrinks(_) => atom_of(name),
        Fill::Grows(count) => list(vec![atom_of(name); *count], nil()),
        Fill::Uses(name, count) => list(vec![atom_of(name); *count], nil()),
        Fill::Refused(_) => atom_of(&[b'n'; TOO_LONG]),
    }
}

/// A record with places in it.
#[derive(Clone, Copy, Debug, PartialEq, Eq)]
pub enum Shape {
    Let(Kind),
    /// The second binding stands first.
    AssignBack,
    /// With a Name binding between two Complex ones.
    Names(Kind),
    Call,
    Lambda,
}

pub const SHAPES: [Shape; 8] = [
    Shape::Let(Kind::Parallel),
    Shape::Let(Kind::Sequential),
    Shape::Let(Kind::Assign),
    Shape::AssignBack,
    Shape::Names(Kind::Parallel),
    Shape::Names(Kind::Assign),
    Shape::Call,
    Shape::Lambda,
];

impl Shape {
    /// How many places it has.
    pub fn places(self) -> usize {
        match self {
            Shape::Let(_) | Shape::AssignBack => 5,
            Shape::Names(_) | Shape::Call | Shape::Lambda => 4,
        }
    }

    pub fn words(self) -> &'static str {
        match self {
            Shape::Let(Kind::Parallel) => "a parallel let",
            Shape::Let(Kind::Sequential) => "a sequential let",
            Shape::Let(Kind::Assign) => "an assign",
            Shape::AssignBack => "an assign, written backward",
            Shape::Names(Kind::Assign) => "an assign with a Name binding",
            Shape::Names(_) => "a parallel let with a Name binding",
            Shape::Call => "a BC",
            Shape::Lambda => "a BF",
        }
    }

    /// What stands in a place.
    pub fn place(self, place: usize) -> &'static str {
        match self {
            Shape::Let(_) | Shape::AssignBack => {
                ["pattern 0", "binding body 0", "pattern 1", "binding body 1", "the body"][place]
            }
            Shape::Names(_) => ["binding body 0", "binding body 1", "binding body 2", "the body"][place],
            Shape::Call => ["element 0", "element 1", "element 2", "the tail"][place],
            Shape::Lambda => ["the capture args", "the captures", "the args", "the body"][place],
        }
    }

    /// Whether an S record stands in a place.
    pub fn is_sexp(self, place: usize) -> bool {
        match self {
            Shape::Let(_) | Shape::AssignBack => place == 0 || place == 2,
            Shape::Names(_) | Shape::Call => false,
            Shape::Lambda => place == 0 || place == 2,
        }
    }

    /// Whether the captures of the record stand in a place.
    pub fn is_captures(self, place: usize) -> bool {
        self == Shape::Lambda && place == 1
    }

    pub fn filled(self, fills: &[Fill], counter: u64) -> Body {
        let body = |place: usize| body_filled(&fills[place], counter);
        let sexp = |place: usize, name: &[u8]| sexp_filled(&fills[place], name);
        let first = || complex_binding(sexp(0, OWN), body(1));
        let second = || complex_binding(sexp(2, b"b"), body(3));
        match self {
            Shape::Let(kind) => let_body(kind, vec![first(), second()], body(4)),
            Shape::AssignBack => let_body(Kind::Assign, vec![second(), first()], body(4)),
            Shape::Names(kind) => {
                let complex = |name: &[u8], place| complex_binding(atom_of(name), body(place));
                let_body(kind, vec![complex(OWN, 0), name_binding(b"b", body(1)), complex(b"c", 2)], body(3))
            }
            Shape::Call => Body::BC(0, vec![body(0), body(1), body(2)], Some(Box::new(body(3)))),
            Shape::Lambda => lambda_of(sexp(0, b"c"), body(1), sexp(2, OWN), body(3)),
        }
    }
}

/// What stands around a record.
#[derive(Clone, Copy, Debug, PartialEq, Eq)]
pub enum Scope {
    None,
    Let,
    Sequential,
    Args,
    AssignBody,
    AssignBinding,
    Captures,
    Lambda,
    Element0,
    NameBinding,
}

pub const SCOPES: [Scope; 10] = [
    Scope::None,
    Scope::Let,
    Scope::Sequential,
    Scope::Args,
    Scope::AssignBody,
    Scope::AssignBinding,
    Scope::Captures,
    Scope::Lambda,
    Scope::Element0,
    Scope::NameBinding,
];

impl Scope {
    pub fn words(self) -> &'static str {
        match self {
            Scope::None => "alone",
            Scope::Let => "in a let",
            Scope::Sequential => "in a sequential let",
            Scope::Args => "in a lambda with args",
            Scope::AssignBody => "in the body of an assign",
            Scope::AssignBinding => "in a binding of an assign",
            Scope::Captures => "in captures",
            Scope::Lambda => "in a lambda in a let",
            Scope::Element0 => "in element 0",
            Scope::NameBinding => "in a lambda in a Name binding",
        }
    }

    /// A record in this scope, which binds the name that its parts use.
    pub fn around(self, inner: Body) -> Body {
        let around = || complex_binding(atom_of(AROUND), empty());
        let in_let = |inner| let_body(Kind::Parallel, vec![name_binding(AROUND, empty())], inner);
        match self {
            Scope::None => inner,
            Scope::Let => in_let(inner),
            Scope::Sequential => {
                let_body(Kind::Sequential, vec![name_binding(AROUND, empty()), name_binding(b"v", empty())], inner)
            }
            Scope::Args => lambda(atom_of(AROUND), inner),
            Scope::AssignBody => let_body(Kind::Assign, vec![around()], inner),
            Scope::AssignBinding => let_body(Kind::Assign, vec![complex_binding(atom_of(b"y"), inner), around()], empty()),
            Scope::Captures => in_let(lambda_of(nil(), inner, nil(), empty())),
            Scope::Lambda => in_let(lambda_of(nil(), empty(), nil(), inner)),
            Scope::Element0 => in_let(call(vec![inner, empty()])),
            Scope::NameBinding => {
                in_let(let_body(Kind::Assign, vec![name_binding(b"y", lambda_of(nil(), empty(), nil(), inner))], empty()))
            }
        }
    }
}
