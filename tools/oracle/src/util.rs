//! The cut part of the Rust's `util`: its topological sort and the bytes of a number.

use crate::shims::BigInt;
use std::collections::HashSet;
use std::mem::swap;

include!(concat!(env!("OUT_DIR"), "/util.rs"));
