//! Assigns by the shape of what their bindings need of each other.

use super::bodies::{capture_args, capturing, integer, leaf, quoted, writing, MENTIONS, USES};
use crate::cases::{atom, call, complex, cons, form_of, lambda, let_of, named, nil, number, var};
use crate::random::Random;
use crate::records::{Binding, Body, Bytes, Kind, Let, Pattern, Record, Sexp};

/// The name of binding `index` of a shape.
pub fn name_of(index: usize) -> Bytes {
    format!("k{index}").into_bytes()
}

/// An assign at a place of its own.
pub fn assign(loc: u32, bindings: Vec<Binding>) -> Let {
    Let { loc, ..let_of(Kind::Assign, bindings, number(1)) }
}

pub fn bind(pattern: Pattern, body: Body) -> Binding {
    Binding { pattern, ..named("", body) }
}

/// A binding of one name, which its pattern has in one of several ways.
pub fn bound(way: usize, name: &[u8], body: Body) -> Binding {
    let pattern = match way % 6 {
        0 => Pattern::Name(name.to_vec()),
        1 => Pattern::Complex(leaf(name)),
        2 => Pattern::Complex(cons(nil(), cons(leaf(name), nil()))),
        3 => Pattern::Complex(cons(cons(quoted(name), nil()), atom("w"))),
        4 => Pattern::Complex(integer(name)),
        _ => Pattern::Complex(cons(leaf(name), leaf(name))),
    };
    bind(pattern, body)
}

fn use_of(names: &[Bytes]) -> Body {
    match names {
        [] => number(1),
        [name] => Body::BV(leaf(name)),
        _ => call(names.iter().map(|name| Body::BV(leaf(name))).collect()),
    }
}

/// Bindings whose needs are given by index. Their patterns have the names in one way, or in all ways by turns.
pub fn of_needs(needs: &[Vec<usize>], way: Option<usize>) -> Vec<Binding> {
    let uses = |indices: &Vec<usize>| use_of(&indices.iter().map(|index| name_of(*index)).collect::<Vec<_>>());
    let binding = |(index, indices)| bound(way.unwrap_or(index), &name_of(index), uses(indices));
    needs.iter().enumerate().map(binding).collect()
}

/// Each needs the one before it.
pub fn forward(count: usize) -> Vec<Vec<usize>> {
    (0..count).map(|index| index.checked_sub(1).into_iter().collect()).collect()
}

/// Each needs the one after it: as many turns as bindings.
pub fn backward(count: usize) -> Vec<Vec<usize>> {
    (0..count).map(|index| Some(index + 1).filter(|next| *next < count).into_iter().collect()).collect()
}

/// A chain in a random sequence.
pub fn shuffled(random: &mut Random, count: usize) -> Vec<Vec<usize>> {
    let mut row: Vec<usize> = (0..count).collect();
    random.shuffle(&mut row);
    let mut needs = vec![vec![]; count];
    row.windows(2).for_each(|pair| needs[pair[1]].push(pair[0]));
    needs
}

/// Each needs some of those that stand before it in a random sequence.
pub fn random_dag(random: &mut Random, count: usize, most: usize) -> Vec<Vec<usize>> {
    let mut row: Vec<usize> = (0..count).collect();
    random.shuffle(&mut row);
    let mut needs = vec![vec![]; count];
    for place in 1..count {
        for _ in 0..random.below(most + 1) {
            needs[row[place]].push(row[random.below(place)]);
        }
    }
    needs
}

/// Some bindings in a ring, in a random sequence, among others of which some hang on the ring.
pub fn ring(random: &mut Random, count: usize, length: usize) -> Vec<Vec<usize>> {
    let mut row: Vec<usize> = (0..count).collect();
    random.shuffle(&mut row);
    let mut needs = vec![vec![]; count];
    for place in 0..length {
        needs[row[place]].push(row[(place + 1) % length]);
    }
    for place in length..count {
        if random.one_in(2) {
            needs[row[place]].push(row[random.below(place)]);
        }
    }
    needs
}

/// A name that is used in each way, bound before and after, and by nothing else; and mentioned where it does not count.
pub fn uses(name: &[u8]) -> Vec<Vec<Binding>> {
    let mut all = Vec::new();
    for (way, used) in USES.iter().chain(&MENTIONS).enumerate() {
        all.push(vec![bound(way, name, used(name))]);
        all.push(vec![bind(Pattern::Name(b"v".to_vec()), used(name)), bound(way, name, number(1))]);
        all.push(vec![
            bound(way, name, number(2)),
            bound(way + 1, name, used(name)),
            bind(Pattern::Name(b"v".to_vec()), number(3)),
        ]);
    }
    all
}

/// A word that `to_sexp` writes, as a name, against every body that writes one.
pub fn written() -> Vec<Vec<Binding>> {
    let words = writing();
    let bodies: Vec<&Body> = words.iter().flat_map(|(_, bodies)| bodies).collect();
    let mut all = Vec::new();
    for (way, (word, _)) in words.iter().enumerate() {
        for body in &bodies {
            all.push(vec![bound(way, word, (*body).clone())]);
            all.push(vec![named("v", (*body).clone()), bound(way, word, number(1))]);
        }
    }
    all
}

/// `&`, and the names that capture args would give, against each of them.
pub fn captured() -> Vec<Vec<Binding>> {
    let mut all = Vec::new();
    for args in capture_args() {
        for name in [&b"&"[..], b"", b"\x00", b"\x00\x00", b"w", b"\xff"] {
            all.push(vec![bound(1, name, capturing(args.clone(), number(1)))]);
        }
        all.push(vec![complex(cons(atom("w"), atom("")), capturing(args.clone(), var("v"))), named("v", number(1))]);
    }
    all
}

/// A name of one number, one atom and one string; near names; the empty name; patterns that provide nothing.
pub fn alike() -> Vec<Vec<Binding>> {
    let kinds = |name: &[u8]| [leaf(name), quoted(name), integer(name)];
    let mut all = Vec::new();
    for name in [&b"a"[..], b"", b"@", b"\x00", b"\x00\x80", b"\xff", b"\x80", b"q"] {
        for pattern in kinds(name) {
            for used in kinds(name) {
                all.push(vec![complex(pattern.clone(), Body::BV(used.clone()))]);
                all.push(vec![complex(atom("v"), Body::BV(used)), complex(pattern.clone(), Body::BV(nil()))]);
            }
        }
    }
    for (name, other) in
        [(&b"a"[..], &b"b"[..]), (b"a", b"ab"), (b"ab", b"a"), (b"", b"a"), (b"a", b""), (b"a", b"A"), (b"\x00", b"")]
    {
        all.push(vec![bound(0, name, Body::BV(leaf(other))), bound(1, other, number(1))]);
        all.push(vec![bound(1, name, Body::BV(leaf(other)))]);
    }
    all.push(vec![complex(nil(), Body::BV(nil())), complex(cons(nil(), nil()), Body::BV(cons(nil(), nil())))]);
    all
}

/// A name that several bindings provide: one provider is enough, and a binding may be its own.
pub fn repeated() -> Vec<Vec<Binding>> {
    let x = |body: Body| complex(atom("x"), body);
    let both = |body: Body| complex(cons(atom("x"), atom("y")), body);
    vec![
        vec![x(var("x")), x(number(1))],
        vec![x(number(1)), x(var("x"))],
        vec![x(var("x")), x(var("x"))],
        vec![x(var("x")), x(var("x")), x(number(1))],
        vec![x(var("y")), named("y", var("x")), x(number(1))],
        vec![x(var("y")), named("y", var("x")), both(number(1))],
        vec![both(var("x")), x(number(1)), named("y", number(2))],
        vec![both(var("y")), x(number(1)), named("z", var("y"))],
        vec![named("x", var("y")), named("x", var("z")), named("z", number(1)), named("y", var("x"))],
        vec![named("a", var("b")), named("c", var("b")), named("b", number(1))],
        vec![both(call(vec![var("x"), var("y")])), x(var("y")), named("y", number(1)), both(var("x"))],
    ]
}

/// More than 3,000 needs in one body, of which only the last is missing; and with none missing.
pub fn many_needs(elements: usize) -> Vec<Vec<Binding>> {
    let words = || {
        let quoted = vec![Body::BQ(atom("")); elements];
        quoted.chunks(64).map(|chunk| call(chunk.to_vec())).collect::<Vec<Body>>()
    };
    let bindings = |last: &str| {
        let mut bodies = words();
        bodies.push(var(last));
        vec![named("v", call(bodies)), complex(cons(atom("q"), atom("")), number(1)), named("z", var("q"))]
    };
    vec![bindings("z"), bindings("v"), bindings("u")]
}

/// BM in a binding body, in captures there, and in the assign's body.
pub fn with_mods() -> Vec<Let> {
    let a_mod = || Body::BM(0, Box::new(form_of(var("x"))));
    let bindings = |body: Body| vec![named("y", number(1)), complex(atom("x"), body), named("z", var("z"))];
    vec![
        assign(1, bindings(a_mod())),
        assign(2, bindings(call(vec![var("x"), a_mod(), a_mod()]))),
        assign(3, bindings(capturing(nil(), a_mod()))),
        assign(4, bindings(capturing(atom("w"), call(vec![a_mod()])))),
        Let { body: a_mod(), ..assign(5, bindings(number(1))) },
        Let { body: a_mod(), ..assign(6, vec![named("x", number(1))]) },
        Let { body: call(vec![a_mod()]), ..assign(7, vec![]) },
    ]
}

/// Patterns of 64 SC, names of 255 bytes, 6 lambdas.
pub fn long() -> Vec<Vec<Binding>> {
    let deep =
        |along_heads: bool| (0..64).fold(atom("x"), |inner, _| if along_heads { cons(inner, nil()) } else { cons(nil(), inner) });
    let long = vec![b'n'; 255];
    let other = [&long[..254], b"m"].concat();
    let lambdas = (0..6).fold(var("x"), |inner, _| lambda(atom("w"), inner));
    vec![
        vec![named("v", var("x")), complex(deep(true), number(1))],
        vec![named("v", var("x")), complex(deep(false), number(1))],
        vec![complex(deep(true), Body::BV(deep(false)))],
        vec![bound(0, &long, number(1)), bound(1, &other, Body::BV(Sexp::SA(0, long.clone())))],
        vec![bound(1, &long, Body::BV(leaf(&other))), bound(2, &other, Body::BV(integer(&long)))],
        vec![named("v", lambdas), named("x", number(1))],
    ]
}

/// An element that needs nothing: a call, a number, a quoted word, a variable that no binding provides.
fn filler(index: usize) -> Body {
    match index % 4 {
        0 => call(vec![var("sha256"), var("puzzle_hash"), number(index as u8)]),
        1 => Body::BQ(atom("coin")),
        2 => Body::BV(Sexp::SI(0, vec![1, index as u8])),
        _ => var("amount"),
    }
}

/// What a pattern of a weighty binding is: a Name, one atom, or a list of two names.
#[derive(Clone, Copy, Debug, PartialEq, Eq)]
pub enum Bound {
    Name,
    Atom,
    List,
}

impl Bound {
    fn pattern(self, name: Bytes) -> Pattern {
        match self {
            Bound::Name => Pattern::Name(name),
            Bound::Atom => Pattern::Complex(leaf(&name)),
            Bound::List => Pattern::Complex(cons(leaf(&name), cons(leaf(&[&name[..], b"_rest"].concat()), nil()))),
        }
    }
}

/// Bindings whose needs are given by index, each with a body of about so many bytes.
pub fn weighty(needs: &[Vec<usize>], body_bytes: usize, bound: Bound) -> Vec<Binding> {
    let binding = |(index, indices): (usize, &Vec<usize>)| {
        let mut elements = vec![var("f")];
        elements.extend(indices.iter().map(|index| Body::BV(leaf(&name_of(*index)))));
        let mut fillers = (index..).map(filler);
        while call(elements.clone()).size() + 20 < body_bytes {
            elements.extend(fillers.next());
        }
        bind(bound.pattern(name_of(index)), call(elements))
    };
    needs.iter().enumerate().map(binding).collect()
}
