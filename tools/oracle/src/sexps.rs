//! Cases of Invent and Substitute: the names that a pattern draws, and a second S record by their map; with what the Rust answers.

mod series;
pub mod shapes;

pub use series::Series;

use crate::answers::{counter, run, Checked, MAX_NAME};
use crate::codec::{sexp_from_rust, sexp_to_rust};
use crate::compiler::comptypes::BodyForm;
use crate::compiler::rename::inner::{invent_new_names_sexp, rename_in_bodyform, rename_in_qq, Map};
use crate::compiler::rename::rename_in_cons;
use crate::records::{Body, Bytes, Form, Record, Sexp, Sink};
use crate::stored::{distinct, two_bytes};
use std::rc::Rc;

/// Substitute without and with `qq` looked into, inside `qq`, and an S record that stands as a body.
#[derive(Clone, Copy, Debug, PartialEq, Eq)]
pub enum Rule {
    Cons,
    ConsQq,
    InQq,
    Alone,
}

pub const RULES: [Rule; 4] = [Rule::Cons, Rule::ConsQq, Rule::InQq, Rule::Alone];

/// How long a result may be: so much less or more than it is, or so many bytes.
#[derive(Clone, Copy, Debug)]
pub enum Room {
    Less(usize),
    More(usize),
    Of(usize),
}

/// What is drawn from, what is substituted and how; F, the room of the result, the counter.
#[derive(Clone, Debug)]
pub struct Case {
    pub f: usize,
    pub room: Room,
    pub counter: u64,
    pub rule: Rule,
    pub pattern: Sexp,
    pub target: Sexp,
}

impl Case {
    /// The CF whose args are the pattern and whose body is a BV of the other record.
    pub fn input(&self) -> Bytes {
        let body = Body::BV(self.target.clone());
        Form { loc: 1, rest: Bytes::new(), args: self.pattern.clone(), helpers: Vec::new(), body }.bytes()
    }
}

/// 0 and the entries with the counter after them, or 6.
struct Drawn {
    number: u8,
    counter: u64,
    map: Bytes,
}

/// 0 and the result, or 7; 0 and nothing after a 6.
struct Renamed {
    number: u8,
    room: usize,
    result: Bytes,
}

/// The entries that `invent_new_names_sexp` gives, as a map has them: the newest first.
fn map_bytes(pairs: &[(Bytes, Bytes)]) -> Bytes {
    let mut bytes = Bytes::new();
    for (old, new) in pairs.iter().rev() {
        bytes.name(old);
        bytes.name(new);
    }
    bytes
}

/// What the Rust draws; 6 where a made name is too long, which the Rust does not know.
fn drawn(case: &Case) -> Checked<(Drawn, Map)> {
    let pattern = sexp_to_rust(&case.pattern);
    let pairs = run(case.counter, || Ok(invent_new_names_sexp(pattern.clone())))?.map_err(|_| "Invent is refused")?;
    if pairs.iter().any(|(_, new)| new.len() > MAX_NAME) {
        return Ok((Drawn { number: 6, counter: case.counter, map: Bytes::new() }, Map::new()));
    }
    let drawn = Drawn { number: 0, counter: counter(), map: map_bytes(&pairs) };
    Ok((drawn, pairs.into_iter().collect()))
}

/// What the Rust makes of the other record.
fn renamed(case: &Case, map: &Map) -> Checked<Sexp> {
    let target = sexp_to_rust(&case.target);
    let value = BodyForm::Value((*target).clone());
    let result = run(0, || match case.rule {
        Rule::Cons => Ok(rename_in_cons(map, target.clone(), false)),
        Rule::ConsQq => Ok(rename_in_cons(map, target.clone(), true)),
        Rule::InQq => Ok(rename_in_qq(map, target.clone())),
        Rule::Alone => match rename_in_bodyform(map, Rc::new(value.clone()))? {
            BodyForm::Value(sexp) => Ok(Rc::new(sexp)),
            _ => panic!("a body of another kind"),
        },
    })?;
    let result = result.map_err(|_| "Substitute is refused")?;
    Ok(sexp_from_rust(&result))
}

/// With 7 where the result is longer than its room.
fn fitted(case: &Case, result: Bytes) -> Renamed {
    let room = match case.room {
        Room::Less(by) => result.len().saturating_sub(by),
        Room::More(by) => result.len() + by,
        Room::Of(room) => room,
    };
    match result.len() > room {
        true => Renamed { number: 7, room, result: Bytes::new() },
        false => Renamed { number: 0, room, result },
    }
}

/// F, the room of the result, the counter, the rule, the number and the counter after Invent, the number of Substitute, the lengths of
/// map, result and input; then the map, the result and the input.
pub fn stored(case: &Case) -> Checked<Bytes> {
    let (drawn, map) = drawn(case)?;
    let result = if drawn.number == 0 { renamed(case, &map)?.bytes() } else { Bytes::new() };
    let renamed = fitted(case, result);
    let input = case.input();
    let mut bytes = two_bytes(case.f).to_vec();
    bytes.extend(two_bytes(renamed.room));
    bytes.extend(case.counter.to_be_bytes());
    bytes.extend([case.rule as u8, drawn.number]);
    bytes.extend(drawn.counter.to_be_bytes());
    bytes.push(renamed.number);
    for part in [&drawn.map, &renamed.result, &input] {
        bytes.extend(two_bytes(part.len()));
    }
    for part in [&drawn.map, &renamed.result, &input] {
        bytes.extend(part);
    }
    Ok(bytes)
}

/// The cases of a series that differ, as they are stored.
pub fn store(series: Series, count: usize) -> Checked<Bytes> {
    distinct(series, count, stored)
}
