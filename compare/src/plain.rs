//! The engine's job once more in ordinary Rust, to measure the engine against.
//!
//! The policy value has the same arrays and is handed by reference, the board
//! is changed in place; every call makes the same checks, check 11 included.
//! Formulas are evaluated for one pair of sets at a time, pairs for a user set and
//! all object sets at a time. Compiling and listing are there once more for 64 pairs of
//! sets at a time, and so is what the lister writes.

pub mod board;
pub mod by_64;
pub mod checks;
pub mod formula;
pub mod labels;
pub mod lister;
pub mod pairs;
pub mod policy;
pub mod reader;
pub mod tuples;
pub mod writer;

mod behind;

pub use behind::{policy_of, Peer, Plain, PlainBy64};
