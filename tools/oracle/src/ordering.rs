//! The model's needs, provisions, exact order and rounds of an assign's bindings.

use crate::records::{Binding, Body, Bytes, Kind, Lambda, Let, Pattern, Sexp};
use std::collections::BTreeSet;

pub type Names = BTreeSet<Bytes>;

#[derive(Debug, PartialEq, Eq)]
pub enum Toposorted {
    Ordered(Vec<usize>),
    /// The indices that stay unplaced, in the row's sequence.
    Deadlock(Vec<usize>),
}

pub fn toposort_assign_bindings(bindings: &[Binding]) -> Toposorted {
    turns(bindings).0
}

/// The outcome, and the turns that it takes.
pub fn turns(bindings: &[Binding]) -> (Toposorted, u32) {
    let has: Vec<Names> = bindings.iter().map(provisions).collect();
    let needs: Vec<Names> = bindings.iter().map(|binding| needed(&binding.body, &has)).collect();
    let mut row: Vec<usize> = (0..bindings.len()).collect();
    let mut placed = 0;
    let mut turns = 0;
    while placed < row.len() {
        turns += 1;
        let done: Names = row[..placed].iter().flat_map(|index| has[*index].clone()).collect();
        let picked: Vec<usize> = (placed..row.len()).filter(|position| needs[row[*position]].is_subset(&done)).collect();
        if picked.is_empty() {
            return (Toposorted::Deadlock(row[placed..].to_vec()), turns);
        }
        for position in picked {
            row.swap(position, placed);
            placed += 1;
        }
    }
    (Toposorted::Ordered(row), turns)
}

/// How many rounds hold a binding: round 1 has those that need nothing, a later one those not yet placed whose every needed name is
/// provided by a binding of the rounds before it.
pub fn rounds(bindings: &[Binding]) -> u64 {
    let has: Vec<Names> = bindings.iter().map(provisions).collect();
    let needs: Vec<Names> = bindings.iter().map(|binding| needed(&binding.body, &has)).collect();
    let mut rounds: Vec<Vec<usize>> = Vec::new();
    let mut round: Vec<usize> = (0..bindings.len()).filter(|index| needs[*index].is_empty()).collect();
    while !round.is_empty() {
        rounds.push(round);
        let placed = rounds.concat();
        let provided = |name: &Bytes| placed.iter().any(|earlier| has[*earlier].contains(name));
        round = (0..bindings.len()).filter(|index| !placed.contains(index) && needs[*index].iter().all(provided)).collect();
    }
    rounds.len() as u64
}

fn provisions(binding: &Binding) -> Names {
    let mut names = Names::new();
    pattern_provides(&binding.pattern, &mut names);
    names
}

/// The names in a body's `to_sexp` that some binding of the same assign provides.
fn needed(body: &Body, has: &[Names]) -> Names {
    let mut words = Names::new();
    body_words(body, &mut words);
    words.into_iter().filter(|word| has.iter().any(|names| names.contains(word))).collect()
}

fn pattern_provides(pattern: &Pattern, names: &mut Names) {
    match pattern {
        Pattern::Name(name) => word(name, names),
        Pattern::Complex(sexp) => make_provides_set(sexp, names),
    }
}

fn word(bytes: &[u8], names: &mut Names) {
    names.insert(bytes.to_vec());
}

fn make_provides_set(sexp: &Sexp, names: &mut Names) {
    match sexp {
        Sexp::SN(_) => {}
        Sexp::SC(_, head, tail) => {
            make_provides_set(head, names);
            make_provides_set(tail, names);
        }
        Sexp::SI(_, bytes) | Sexp::SQ(_, _, bytes) | Sexp::SA(_, bytes) => word(bytes, names),
    }
}

fn body_words(body: &Body, names: &mut Names) {
    match body {
        Body::BL(data) => let_words(data, names),
        Body::BF(data) => lambda_words(data, names),
        Body::BQ(sexp) => {
            word(b"q", names);
            make_provides_set(sexp, names);
        }
        Body::BV(sexp) => make_provides_set(sexp, names),
        Body::BC(_, elements, tail) => {
            elements.iter().for_each(|element| body_words(element, names));
            if let Some(tail) = tail {
                word(b"&rest", names);
                body_words(tail, names);
            }
        }
        Body::BM(_, _) => unreachable!("refusal 4 keeps a BM out of every binding body"),
    }
}

fn let_words(data: &Let, names: &mut Names) {
    let marker: &[u8] = match data.kind {
        Kind::Parallel => b"let",
        Kind::Sequential => b"let*",
        Kind::Assign => b"assign",
    };
    word(marker, names);
    for binding in &data.bindings {
        pattern_provides(&binding.pattern, names);
        body_words(&binding.body, names);
    }
    body_words(&data.body, names);
}

fn lambda_words(data: &Lambda, names: &mut Names) {
    word(b"lambda", names);
    if truthy(&data.capture_args) {
        word(b"&", names);
        make_provides_set(&data.capture_args, names);
    }
    make_provides_set(&data.args, names);
    body_words(&data.body, names);
}

fn truthy(sexp: &Sexp) -> bool {
    match sexp {
        Sexp::SN(_) => false,
        Sexp::SC(_, _, _) => true,
        Sexp::SI(_, bytes) | Sexp::SQ(_, _, bytes) | Sexp::SA(_, bytes) => bytes.iter().any(|byte| *byte != 0),
    }
}
