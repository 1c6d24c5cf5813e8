//! Forms such as a treasurer would draw: a payout whose fees are assigns, nested lets, lambdas in each other.

use oracle::cases::{atom, body_of, call, complex, form_of, lambda, let_of, named, nil, number, var};
use oracle::records::{Body, Form, Head, Helper, Kind, Sexp};
use oracle::sexps::shapes::list;

/// So many payees of a payout.
const PAYEES: usize = 8;
/// How deep the lets stand in each other.
const LETS: usize = 8;
/// How deep lambdas may stand in each other.
const LAMBDAS: usize = 6;

/// Each form with what it is.
pub fn all() -> Vec<(&'static str, Form)> {
    vec![
        ("payout", payout(PAYEES, "")),
        ("payment_to_", payout(PAYEES, "payment_to_the_treasury_of_the_club_")),
        ("nested lets", nested_lets(LETS)),
        ("a lambda", lambdas(1)),
        ("3 lambdas", lambdas(3)),
        ("6 lambdas", lambdas(LAMBDAS)),
    ]
}

/// A list of these names.
fn args(names: &[String]) -> Sexp {
    list(names.iter().map(|name| atom(name)).collect(), nil())
}

/// A name for each of so many.
fn of_each(what: &str, count: usize) -> Vec<String> {
    (0..count).map(|index| format!("{what}-{index}")).collect()
}

/// `(name first second)`.
fn applied(name: &str, first: Body, second: Body) -> Body {
    call(vec![var(name), first, second])
}

/// Amounts, a rate, and for each payee an assign of the fee and of what is left; the body makes a coin of each. All names of its own
/// begin alike.
fn payout(payees: usize, beginning: &str) -> Form {
    let named = |word: &str| format!("{beginning}{word}");
    let (amounts, keys) = (of_each(&named("amount"), payees), of_each(&named("key"), payees));
    let mut bindings = Vec::new();
    for (index, amount) in amounts.iter().enumerate() {
        let (amount, fee) = (var(amount), named(&format!("fee-{index}")));
        let rest = applied("-", amount.clone(), var(&fee));
        bindings.push(complex(atom(&named(&format!("rest-{index}"))), rest));
        bindings.push(complex(atom(&fee), call(vec![var("fee-of"), amount, var(&named("rate"))])));
    }
    let coin = |index: usize| {
        let made = call(vec![var("list"), number(51), var(&keys[index]), var(&named(&format!("rest-{index}")))]);
        applied("c", made, number(0))
    };
    let mut elements = vec![var("list")];
    elements.extend((0..payees).map(coin));
    let share = applied("/", applied("*", var(&named("amount")), var(&named("rate"))), number(100));
    let head = Head { loc: 1, name: b"fee-of".to_vec(), rest: Vec::new() };
    let helper = Helper::HD(head, true, args(&[named("amount"), named("rate")]), share);
    let names = [vec![named("rate")], amounts.clone(), keys.clone()].concat();
    Form { args: args(&names), helpers: vec![helper], ..form_of(body_of(let_of(Kind::Assign, bindings, call(elements)))) }
}

/// Lets of three names each, of which the inner ones use the outer.
fn nested_lets(depth: usize) -> Form {
    let start = applied("+", var("total-0"), var("rate"));
    let body = (0..depth).rev().fold(start, |inner, level| {
        let before = if level == 0 { "rate".to_string() } else { format!("total-{}", level - 1) };
        let bindings = vec![
            named(&format!("fee-{level}"), applied("*", var(&before), var("rate"))),
            named(&format!("tax-{level}"), applied("/", var(&before), number(20))),
            named(&format!("total-{level}"), applied("-", var(&before), number(1))),
        ];
        let used = applied("+", var(&format!("fee-{level}")), var(&format!("tax-{level}")));
        body_of(let_of(Kind::Parallel, bindings, applied("c", used, inner)))
    });
    Form { args: args(&["rate".to_string()]), ..form_of(body) }
}

/// Lambdas in each other, each of which adds its argument. A let in the innermost of six would get a name of more than 255 bytes.
fn lambdas(depth: usize) -> Form {
    let body = (0..depth).fold(var("rate"), |inner, level| {
        let name = format!("x-{level}");
        lambda(atom(&name), applied("+", var(&name), inner))
    });
    Form { args: args(&["rate".to_string()]), ..form_of(body) }
}
