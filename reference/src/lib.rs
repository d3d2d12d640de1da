//! Label policies on a comment screen, a second time and as plainly as
//! possible: the answers to compare another implementation with.
//!
//! Everything here is a pure function over plain vectors. Refusals are the
//! numbers 1 to 23 of the requirement and its changes.

#![forbid(unsafe_code)]

pub mod card_calls;
pub mod case_file;
pub mod cases;
pub mod form;
pub mod formula;
pub mod isolation;
pub mod labels;
pub mod lister;
pub mod machine;
pub mod policy;
pub mod spelled;
pub mod stored;
pub mod text;
pub mod tuples;
pub mod wrong;
