//! Compiling and listing in plain Rust, 64 pairs of sets at once.

mod blocks;
mod labels;
mod tuples;

pub use labels::{compile, counts};
pub use tuples::{granted, list};
