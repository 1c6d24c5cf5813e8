//! Stand-ins for what the cut Rust cites and the checkout's other files or registry crates define. All of them:
//!
//! - `lazy_static!`: makes a plain `static`; its one use is a counter that can be made at compile time.
//! - `Srcloc`: a location. Here it is the L of a record, and, in a helper's `nl`, also the helper's R, which the pass only copies.
//!   `ext` (a span over two places) keeps the first L: its results only go into `to_sexp`, where no location is looked at.
//! - `BigInt` (num_bigint): a number as its shortest signed big-endian bytes; `to_signed_bytes_be` gives them back.
//! - `zero` (num_traits): the number 0, whose bytes are one 00.
//! - `truthy` (compiler/clvm.rs): written from the meaning of the word in CLVM, not cut: false for nil and for a number, a quoted
//!   string or an atom whose bytes are all 00 (or none), true otherwise. It decides whether `to_sexp` writes a lambda's capture args.
//! - `Serialize` (serde): dropped from the derive lists by the build; nothing here writes JSON.

use std::rc::Rc;

use crate::compiler::sexp::SExp;
use crate::util::u8_from_number;

macro_rules! lazy_static {
    (pub static ref $name:ident : $type:ty = $value:expr;) => {
        pub static $name: $type = $value;
    };
}

#[derive(Clone, Debug, PartialEq, Eq)]
pub struct Srcloc {
    pub number: u32,
    pub carried: Rc<[u8]>,
}

impl Srcloc {
    pub fn at(number: u32) -> Srcloc {
        Srcloc::carrying(number, &[])
    }

    pub fn carrying(number: u32, carried: &[u8]) -> Srcloc {
        Srcloc { number, carried: carried.into() }
    }

    pub fn ext(&self, _other: &Srcloc) -> Srcloc {
        self.clone()
    }
}

#[derive(Clone, Debug, PartialEq, Eq)]
pub struct BigInt(Vec<u8>);

impl BigInt {
    /// Of bytes that are the shortest for their number.
    pub fn of_shortest(bytes: &[u8]) -> BigInt {
        BigInt(bytes.to_vec())
    }

    pub fn to_signed_bytes_be(&self) -> Vec<u8> {
        self.0.clone()
    }
}

pub fn zero() -> BigInt {
    BigInt(vec![0])
}

pub fn truthy(sexp: Rc<SExp>) -> bool {
    match &*sexp {
        SExp::Nil(_) => false,
        SExp::Cons(_, _, _) => true,
        SExp::Integer(_, number) => some_bit(&u8_from_number(number.clone())),
        SExp::QuotedString(_, _, bytes) | SExp::Atom(_, bytes) => some_bit(bytes),
    }
}

fn some_bit(bytes: &[u8]) -> bool {
    bytes.iter().any(|byte| *byte != 0)
}
