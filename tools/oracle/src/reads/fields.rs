//! Inputs for the tests of single fields, and a small record of every kind to be cut and changed.

use super::limits::{a_mod, head, Inputs, Places};
use super::Asked;
use crate::cases::{atom, body_of, call, complex, cons, form_of, let_of, named, nil, number, var};
use crate::records::{Body, Bytes, Form, Head, Helper, Hint, Kind, Lambda, Let, Record, Sexp};

/// Numbers: none, one byte, the shortest of two, longer than needed, of 255 bytes.
pub fn integers() -> Inputs {
    let mut numbers: Vec<Bytes> = vec![vec![], vec![0; 255], [vec![0x7f], vec![0; 254]].concat()];
    for first in [0x00, 0x01, 0x7f, 0x80, 0xfe, 0xff] {
        numbers.push(vec![first]);
        for second in [0x00, 0x7f, 0x80, 0xff] {
            numbers.extend([vec![first, second], vec![first, second, 0x00]]);
        }
    }
    let in_pattern = |number: Bytes| {
        let bindings = vec![complex(cons(Sexp::SI(0, number), nil()), var("x"))];
        (Asked::Assign, let_of(Kind::Assign, bindings, var("x")).bytes())
    };
    let quoted = |number: Bytes| (Asked::Form, form_of(Body::BQ(Sexp::SI(0, number))).bytes());
    numbers.into_iter().flat_map(|number| [quoted(number.clone()), in_pattern(number)]).collect()
}

/// A record, and the offset in it of a byte that has a range.
fn ranged() -> Vec<(Asked, Bytes, usize)> {
    let body = form_of(var("")).size() - var("").size();
    let a_let = |kind: Kind| let_of(kind, vec![named("x", var("y"))], var("z"));
    let form = |body: Body| (Asked::Form, form_of(body).bytes());
    let at = |(asked, input): (Asked, Bytes), offset: usize| (asked, input, offset);
    vec![
        at(form(body_of(a_let(Kind::Parallel))), body + 2),
        at(form(body_of(a_let(Kind::Parallel))), body + 7),
        at(form(body_of(a_let(Kind::Assign))), body + 8),
        at(form(body_of(a_let(Kind::Sequential))), body + 20),
        at(form(call(vec![])), body + 7),
        at(form(small_lambda(None)), body + 6),
        at((Asked::Helper, Helper::HD(head(b"f"), false, nil(), var("x")).bytes()), 6),
        at((Asked::Assign, a_let(Kind::Assign).bytes()), 2),
        at((Asked::Assign, a_let(Kind::Assign).bytes()), 7),
        at((Asked::Assign, a_let(Kind::Assign).bytes()), 8),
    ]
}

/// Kind, K, hint, pattern, tail and inline byte, in and out of range.
pub fn choices() -> Inputs {
    let values = [0, 1, 2, 3, 4, 5, 0x7f, 0x80, 0xff];
    let each = |(asked, input, offset): (Asked, Bytes, usize)| values.map(|byte| (asked, changed(&input, offset, byte)));
    ranged().into_iter().flat_map(each).collect()
}

/// Names and R of no byte, one, and the most that a byte says and one more; whole and without their last byte.
pub fn lengths(places: &mut Places) -> Inputs {
    let mut inputs = Inputs::new();
    for length in [0, 1, 255] {
        let name = vec![b'n'; length];
        inputs.extend(places.put(&Body::BV(Sexp::SA(0, name.clone()))));
        inputs.extend(places.put(&Body::BQ(Sexp::SQ(0, b'"', name.clone()))));
        inputs.push((Asked::Helper, Helper::HR(head(&name)).bytes()));
        inputs.push((Asked::Assign, let_of(Kind::Assign, vec![complex(Sexp::SA(0, name), var(""))], var("")).bytes()));
    }
    for length in [0, 1, 255, 256, 257] {
        let rest = vec![0; length];
        inputs.push((Asked::Helper, Helper::HR(Head { rest: rest.clone(), ..head(b"") }).bytes()));
        inputs.push((Asked::Form, Form { rest, ..form_of(Body::BV(nil())) }.bytes()));
    }
    let cut: Inputs = inputs.iter().map(|(asked, input)| (*asked, input[..input.len() - 1].to_vec())).collect();
    inputs.extend(cut);
    inputs
}

/// Every letter as the second of a mark, and letters of other marks as its first. The fields behind it fit the right mark.
pub fn marks() -> Inputs {
    let form = form_of(var("x")).bytes();
    let body = form.len() - var("x").size();
    let helper = Helper::HR(head(b"x")).bytes();
    let assign = let_of(Kind::Assign, vec![named("x", number(1))], var("x")).bytes();
    let binding = assign.len() - var("x").size() - named("x", number(1)).size();
    let places = [
        (Asked::Form, &form, 0),
        (Asked::Form, &form, body),
        (Asked::Form, &form, body + 2),
        (Asked::Helper, &helper, 0),
        (Asked::Assign, &assign, 0),
        (Asked::Assign, &assign, binding),
    ];
    let mut inputs = Inputs::new();
    for (asked, input, place) in places {
        inputs.extend((b'A'..=b'Z').map(|letter| (asked, changed(input, place + 1, letter))));
        inputs.extend(b"BSHCXbsh".map(|letter| (asked, changed(input, place, letter))));
    }
    inputs
}

fn changed(input: &[u8], place: usize, byte: u8) -> Bytes {
    let mut input = input.to_vec();
    input[place] = byte;
    input
}

fn small_lambda(keyword: Option<u32>) -> Body {
    let lambda = Lambda { loc: 1, keyword, capture_args: atom("c"), captures: var("d"), args: atom("a"), body: var("a") };
    Body::BF(Box::new(lambda))
}

/// A small let of each kind, with each keyword and hint.
fn small_lets() -> Vec<Let> {
    let complex = |name: &str| complex(cons(atom(name), nil()), number(1));
    let a_let = |kind, keyword, hint, bindings| Let { kind, loc: 1, keyword, hint, bindings, body: var("x") };
    vec![
        a_let(Kind::Parallel, None, Hint::Absent, vec![named("x", number(2))]),
        a_let(Kind::Parallel, Some(2), Hint::NoChoice, vec![]),
        a_let(Kind::Sequential, Some(2), Hint::Inline(3), vec![named("x", var("y"))]),
        a_let(Kind::Sequential, None, Hint::NonInline(3), vec![named("x", number(1)), complex("y")]),
        a_let(Kind::Assign, None, Hint::Absent, vec![complex("x")]),
        a_let(Kind::Assign, Some(2), Hint::Inline(3), vec![named("x", number(1))]),
    ]
}

fn small_bodies() -> Vec<Body> {
    vec![
        Body::BQ(cons(Sexp::SI(1, vec![0, 0x80]), Sexp::SQ(2, b'"', b"t".to_vec()))),
        Body::BV(cons(nil(), atom(""))),
        call(vec![var("f"), number(1)]),
        Body::BC(1, vec![var("f")], Some(Box::new(var("t")))),
        a_mod(form_of(var("m"))),
        small_lambda(None),
        small_lambda(Some(2)),
    ]
}

fn small_helpers() -> Vec<Helper> {
    let named = |name: &[u8]| Head { loc: 1, name: name.to_vec(), rest: vec![0x52, 0x53] };
    vec![
        Helper::HC(named(b"c"), number(1)),
        Helper::HM(named(b"m"), atom("a"), form_of(var("a"))),
        Helper::HD(named(b"d"), false, atom("a"), var("a")),
        Helper::HD(named(b""), true, nil(), number(1)),
        Helper::HN(named(b"n"), vec![Helper::HR(named(b"r")), Helper::HR(named(b""))]),
    ]
}

/// Small records with every mark and every choice of a field, each accepted.
pub fn small() -> Inputs {
    let mut inputs = Inputs::new();
    let (assigns, lets): (Vec<Let>, Vec<Let>) = small_lets().into_iter().partition(|data| data.kind == Kind::Assign);
    inputs.extend(assigns.iter().map(|data| (Asked::Assign, data.bytes())));
    let bodies = lets.into_iter().map(body_of).chain(small_bodies());
    inputs.extend(bodies.map(|body| (Asked::Form, form_of(body).bytes())));
    inputs.extend(small_helpers().iter().map(|helper| (Asked::Helper, helper.bytes())));
    let helpers = vec![Helper::HC(head(b"c"), number(1)), Helper::HR(head(b"r"))];
    inputs.push((Asked::Form, Form { loc: 1, rest: vec![0x42], args: atom("x"), helpers, body: var("x") }.bytes()));
    let unnamed = let_of(Kind::Assign, vec![named("", var(""))], a_mod(form_of(var(""))));
    inputs.push((Asked::Assign, unnamed.bytes()));
    inputs
}
