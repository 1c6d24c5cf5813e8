//! The rename pass of Chialisp's Rust compiler on form records, a model of it, a reader with all refusals, and what makes inputs for them.

#[macro_use]
mod shims;
pub mod answers;
mod bodies;
pub mod boundary;
pub mod calls;
pub mod cases;
mod codec;
pub mod compare;
mod compiler;
pub mod generate;
mod model;
mod ordering;
pub mod orders;
pub mod pages;
pub mod print;
pub mod random;
pub mod reader;
pub mod reads;
pub mod records;
pub mod rows;
pub mod sample;
pub mod sexps;
mod stored;
mod util;
pub mod vectors;
