//! H records and CF for each of their rules.

use super::slots::Part;
use crate::answers::Call;
use crate::bodies::slots::{complex_binding, deadlocked, empty, growing, lambda_of, let_body, long_name, name_binding};
use crate::cases::{atom, call, cons, form_of, nil, var};
use crate::reads::limits::{a_mod, head};
use crate::records::{Body, Form, Head, Helper, Kind, Sexp};
use crate::sexps::shapes::{self as sexps, integer, list};

/// A call, what it is given, and what that is about.
pub type Shaped = (String, Call, Part);

/// Bodies that show which names reach them, and which rule takes them.
fn shown() -> Vec<Body> {
    let xy = || call(vec![var("x"), var("x"), var("y")]);
    vec![
        xy(),
        let_body(Kind::Parallel, vec![complex_binding(atom("x"), var("x"))], xy()),
        lambda_of(cons(atom("x"), atom("y")), xy(), atom("y"), xy()),
        let_body(Kind::Assign, vec![complex_binding(atom("z"), var("y")), complex_binding(atom("y"), var("x"))], xy()),
        lambda_of(nil(), empty(), nil(), let_body(Kind::Sequential, vec![name_binding(b"y", var("x"))], xy())),
        Body::BQ(atom("x")),
        a_mod(Form { args: atom("x"), ..form_of(xy()) }),
    ]
}

/// `(x . y)`.
fn xy() -> Sexp {
    cons(atom("x"), atom("y"))
}

/// Every kind of helper around a body, with args that bind `x`, `y`, both or none.
pub fn kinds(body: &Body) -> Vec<(&'static str, Helper)> {
    let constant = || Helper::HC(head(b"x"), body.clone());
    let function = |inline, args| Helper::HD(head(b"y"), inline, args, body.clone());
    let a_macro = |args, inner, helpers| Helper::HM(head(b"x"), args, Form { args: inner, helpers, ..form_of(body.clone()) });
    let space = |helpers| Helper::HN(head(b"x"), helpers);
    vec![
        ("HC", constant()),
        ("HD without args", function(false, nil())),
        ("HD of x", function(true, atom("x"))),
        ("HD of y", function(false, atom("y"))),
        ("HD of x and y", function(true, xy())),
        ("HM without args", a_macro(nil(), nil(), vec![])),
        ("HM of x", a_macro(atom("x"), nil(), vec![constant()])),
        ("HM of a CF of x", a_macro(nil(), atom("x"), vec![constant()])),
        ("HM of x, a CF of x", a_macro(atom("x"), atom("x"), vec![function(false, atom("y"))])),
        ("HM of y, a CF of x", a_macro(atom("y"), atom("x"), vec![space(vec![constant()])])),
        ("HM of x, an HM in it", a_macro(atom("x"), nil(), vec![a_macro(atom("y"), nil(), vec![constant()])])),
        ("HN of none", space(vec![])),
        ("HN of an HC", space(vec![constant()])),
        ("HN of an HD", space(vec![function(true, atom("x")), constant()])),
        ("HN of an HM", space(vec![a_macro(atom("x"), atom("y"), vec![constant()]), Helper::HR(head(b"x"))])),
        ("HN of an HN", space(vec![space(vec![constant(), function(false, atom("y"))]), constant()])),
        ("HR", Helper::HR(Head { rest: b"xSA".to_vec(), ..head(b"x") })),
    ]
}

/// A helper as each call meets it: alone; in a CF of `x`, of both or of none; and where the CF keeps its args.
fn in_calls(about: &str, helper: &Helper, body: &Body) -> Vec<Shaped> {
    let form = |args: Sexp| Part::Form(Form { args, helpers: vec![helper.clone()], ..form_of(body.clone()) });
    vec![
        (format!("{about}, alone"), Call::Helper, Part::Helper(helper.clone())),
        (format!("{about}, in a CF of x"), Call::Whole, form(atom("x"))),
        (format!("{about}, in a CF of x and y"), Call::Whole, form(xy())),
        (format!("{about}, by Children only"), Call::Children, form(atom("x"))),
    ]
}

/// Every kind of helper under every rule.
pub fn rules() -> Vec<Shaped> {
    let mut all = Vec::new();
    for (index, body) in shown().iter().enumerate() {
        for (what, helper) in kinds(body) {
            all.extend(in_calls(&format!("{what}, body {index}"), &helper, &var("x")));
        }
        let form = |args: Sexp| Part::Form(Form { args, ..form_of(body.clone()) });
        for args in [nil(), atom("x"), xy()] {
            all.push((format!("CF, body {index}"), Call::Whole, form(args.clone())));
            all.push((format!("CF, body {index}"), Call::Children, form(args)));
        }
    }
    all
}

/// Macros in macros, so many deep, whose args have one name, two by turns, or a name each.
pub fn macros() -> Vec<Shaped> {
    let name = |way: usize, level: usize| match way {
        0 => atom("x"),
        1 => atom(["x", "y"][level % 2]),
        _ => atom(&format!("x{level}")),
    };
    let mut all = Vec::new();
    for depth in 1..=4 {
        for way in 0..3 {
            let used = || call((0..=depth).flat_map(|level| [Body::BV(name(way, level)), var("z")]).collect());
            let innermost = Helper::HC(head(b"c"), used());
            let deep = (0..depth).fold(innermost, |inner, level| {
                let args = if way == 1 { name(way, level + 1) } else { nil() };
                Helper::HM(head(b"m"), name(way, level), Form { args, helpers: vec![inner], ..form_of(used()) })
            });
            let form = Form { args: list(vec![atom("x"), atom("z")], nil()), helpers: vec![deep.clone()], ..form_of(used()) };
            let about = format!("{depth} macros in each other");
            all.push((about.clone(), Call::Helper, Part::Helper(deep)));
            all.push((about.clone(), Call::Whole, Part::Form(form.clone())));
            all.push((about, Call::Children, Part::Form(form)));
        }
    }
    all
}

/// Args in each place that draws names, and where they are kept; the body uses what they bind.
pub fn with_args(about: &str, args: &Sexp) -> Vec<Shaped> {
    let used = || call(vec![empty(), var("x"), var("y"), var("@"), Body::BV(sexps::named(b"")), var("q"), var("qq")]);
    let function = Helper::HD(head(b"d"), false, args.clone(), used());
    let a_macro = |args: Sexp, inner: Sexp| Helper::HM(head(b"m"), args, Form { args: inner, ..form_of(used()) });
    let form = Form { args: args.clone(), ..form_of(used()) };
    vec![
        (format!("{about} of an HD"), Call::Helper, Part::Helper(function)),
        (format!("{about} of an HM"), Call::Helper, Part::Helper(a_macro(args.clone(), nil()))),
        (format!("{about} of the CF of an HM"), Call::Helper, Part::Helper(a_macro(atom("x"), args.clone()))),
        (format!("{about} of a CF"), Call::Whole, Part::Form(form.clone())),
        (format!("{about} of a CF, by Children only"), Call::Children, Part::Form(form)),
    ]
}

/// Args with the words of quoting, `qq` most of all, in every place.
pub fn quoting() -> Vec<Sexp> {
    let worded = |word: &str, element| list(vec![atom(word), element], nil());
    let unquoted = worded("unquote", atom("x"));
    let mut all: Vec<Sexp> = sexps::WORDS.iter().flat_map(|word| (0..3).map(|count| sexps::worded(word, count, nil()))).collect();
    all.extend(sexps::closers().into_iter().skip(1).map(|end| sexps::worded("qq", 1, end)));
    all.push(sexps::worded("qq", 1, atom("x")));
    all.push(sexps::worded("qq", 1, integer(b"\x01")));
    all.extend(sexps::placed(&unquoted).into_iter().take(13));
    all.push(worded("qq", list(vec![atom("y"), unquoted.clone(), atom("y")], nil())));
    all.push(worded("qq", worded("unquote", worded("quote", atom("x")))));
    all.push(worded("qq", cons(atom("unquote"), atom("x"))));
    all.push(list(vec![atom("y"), atom("qq"), unquoted], nil()));
    all
}

/// Helpers in a CF of `x` whose new args still have that name, since `qq` kept it: the in-rules keep it too.
pub fn kept_args() -> Vec<Shaped> {
    let worded = |word: &str, element| list(vec![atom(word), element], nil());
    let used = || call(vec![var("x"), var("x"), var("y")]);
    let unquoted = cons(atom("x"), worded("unquote", atom("y")));
    let mut all = Vec::new();
    for args in [worded("qq", atom("x")), worded("qq", unquoted), cons(worded("qq", atom("x")), atom("y"))] {
        let helpers = [
            ("an HD", Helper::HD(head(b"d"), false, args.clone(), used())),
            ("an HM", Helper::HM(head(b"m"), args.clone(), form_of(used()))),
            ("the CF of an HM", Helper::HM(head(b"m"), nil(), Form { args: args.clone(), ..form_of(used()) })),
        ];
        for (what, helper) in helpers {
            let form = Form { args: atom("x"), helpers: vec![helper], ..form_of(used()) };
            all.push((format!("args of {what} that keep x, in a CF of x"), Call::Whole, Part::Form(form)));
        }
    }
    all
}

/// Args of names alike, `@`, none, the empty name.
pub fn patterns() -> Vec<Sexp> {
    sexps::patterns()
}

/// Several helpers of different kinds, one after the other: the counter goes from each to the next.
pub fn several(order: &[usize]) -> Vec<Shaped> {
    let body = call(vec![var("f"), var("x"), growing(1), var("y")]);
    let all = kinds(&body);
    let helpers: Vec<Helper> = order.iter().map(|index| all[index % all.len()].1.clone()).collect();
    let form = |args| Part::Form(Form { args, helpers: helpers.clone(), ..form_of(body.clone()) });
    vec![
        ("several helpers".to_string(), Call::Whole, form(atom("x"))),
        ("several helpers".to_string(), Call::Children, form(atom("x"))),
        ("several helpers".to_string(), Call::Helper, Part::Helper(Helper::HN(head(b"n"), helpers.clone()))),
    ]
}

/// What is kept as it is: R, the names of helpers, what stands in a BM.
pub fn kept() -> Vec<Shaped> {
    let mut all = Vec::new();
    for length in [0, 1, 2, 255, 256, 300] {
        let rest: Vec<u8> = (0..length).map(|index| b"SAHCBV\x00\xff"[index % 8]).collect();
        let name = vec![b'x'; length.min(255)];
        for (what, helper) in kinds(&var("x")) {
            if length < 3 || what.len() < 5 {
                all.push((format!("R of {length} bytes, {what}"), Call::Helper, Part::Helper(with_head(helper, &name, &rest))));
            }
        }
        let form = Form { rest, args: atom("x"), ..form_of(var("x")) };
        all.push((format!("R of {length} bytes, CF"), Call::Whole, Part::Form(form.clone())));
        all.push((format!("R of {length} bytes, CF"), Call::Children, Part::Form(form)));
    }
    for inner in [deadlocked(), long_name(253)] {
        let form = Form { args: atom("x"), ..form_of(a_mod(form_of(inner))) };
        all.push(("refused in a BM".to_string(), Call::Whole, Part::Form(form)));
    }
    all
}

/// A helper with this name and this R.
fn with_head(helper: Helper, name: &[u8], rest: &[u8]) -> Helper {
    let head = Head { loc: 0, name: name.to_vec(), rest: rest.to_vec() };
    match helper {
        Helper::HC(_, body) => Helper::HC(head, body),
        Helper::HM(_, args, form) => Helper::HM(head, args, form),
        Helper::HD(_, inline, args, body) => Helper::HD(head, inline, args, body),
        Helper::HN(_, helpers) => Helper::HN(head, helpers),
        Helper::HR(_) => Helper::HR(head),
    }
}

/// A name of so many bytes in each place of args that draws names, alone and behind another.
pub fn long(length: usize) -> Vec<Shaped> {
    let name = || sexps::named(&vec![b'n'; length]);
    let mut all = with_args("long name", &name());
    all.extend(with_args("long name behind another", &cons(atom("x"), name())));
    let deep = Helper::HN(head(b"n"), vec![Helper::HD(head(b"d"), true, name(), empty())]);
    all.push(("long name in a namespace".to_string(), Call::Children, Part::Form(super::slots::form_with(nil(), deep))));
    all
}
