//! BM in and around the binding bodies of assigns, for refusal 4.

use super::limits::{a_mod, capturing, head, Inputs, Places};
use super::Asked;
use crate::cases::{body_of, call, complex, form_of, lambda, let_of, named, nil, number, var};
use crate::records::{Body, Form, Helper, Kind, Let, Record};

fn some_mod() -> Body {
    a_mod(form_of(number(1)))
}

/// An assign that binds such a body, before and after a harmless one, and with such a body.
fn assign(bound: Body, body: Body) -> Let {
    let_of(Kind::Assign, vec![complex(nil(), number(1)), named("x", bound), named("y", number(2))], body)
}

/// Each way for a body to stand in a body.
const WAYS: [fn(Body) -> Body; 10] = [
    |inner| call(vec![var("f"), inner]),
    |inner| Body::BC(0, vec![], Some(Box::new(inner))),
    |inner| body_of(let_of(Kind::Parallel, vec![named("z", inner)], number(1))),
    |inner| body_of(let_of(Kind::Parallel, vec![named("z", number(1))], inner)),
    |inner| body_of(let_of(Kind::Sequential, vec![named("z", inner)], number(1))),
    |inner| body_of(let_of(Kind::Sequential, vec![named("z", number(1))], inner)),
    |inner| body_of(let_of(Kind::Assign, vec![named("z", inner)], number(1))),
    |inner| body_of(let_of(Kind::Assign, vec![named("z", number(1))], inner)),
    |inner| lambda(nil(), inner),
    capturing,
];

/// Bodies with one BM or several, each in every way.
fn bodies() -> Vec<Body> {
    let mut bodies = vec![
        some_mod(),
        call(vec![some_mod(), some_mod()]),
        // what stands in a BM is not searched
        a_mod(form_of(body_of(assign(some_mod(), number(1))))),
        a_mod(form_of(some_mod())),
        call(vec![a_mod(form_of(body_of(assign(some_mod(), number(1))))), body_of(assign(number(1), some_mod()))]),
    ];
    bodies.extend(WAYS.map(|way| way(some_mod())));
    for outer in WAYS {
        bodies.push(outer(body_of(assign(some_mod(), number(1)))));
        bodies.push(outer(body_of(assign(number(1), some_mod()))));
    }
    bodies
}

/// Such a body bound by an assign; in no assign; in the body of one; bound by an assign in the CF of a macro or of a BM.
pub fn all(places: &mut Places) -> Inputs {
    let mut inputs = Inputs::new();
    for body in bodies() {
        inputs.push((Asked::Assign, assign(body.clone(), number(1)).bytes()));
        let inner = form_of(body_of(assign(body.clone(), some_mod())));
        let macros = vec![Helper::HM(head(b"m"), nil(), inner.clone())];
        inputs.extend(places.pick(vec![
            (Asked::Assign, assign(number(1), body.clone()).bytes()),
            (Asked::Helper, macros[0].bytes()),
            (Asked::Form, form_of(a_mod(inner)).bytes()),
            (Asked::Form, Form { helpers: macros, ..form_of(body.clone()) }.bytes()),
        ]));
        inputs.push((Asked::Form, form_of(body).bytes()));
    }
    inputs.extend(deep(places));
    inputs.extend(late(places));
    inputs
}

/// Under 0 to 28 calls in a binding body.
fn deep(places: &mut Places) -> Inputs {
    let under = |calls: usize| (0..calls).fold(some_mod(), |inner, _| call(vec![inner]));
    (0..=28).step_by(4).flat_map(|calls| places.put(&body_of(assign(under(calls), number(1))))).collect()
}

/// A fault of reading behind such a BM comes first: a wrong mark, a cut, a byte left over.
fn late(places: &mut Places) -> Inputs {
    let mut inputs = Inputs::new();
    for (asked, input) in places.put(&body_of(assign(some_mod(), var("x")))) {
        let mut wrong = input.clone();
        let last = wrong.len() - 10;
        wrong[last] = b'X';
        let mut more = input.clone();
        more.push(0);
        inputs.extend([(asked, wrong), (asked, input[..input.len() - 1].to_vec()), (asked, more)]);
    }
    inputs
}
