//! The proved engine, through its archive, beside two others: the second
//! implementation, which says what every answer must be, and plain Rust, which
//! says how long it may take.

#![deny(unsafe_code)]

pub mod boundary;
pub mod comparison;
pub mod damage;
#[allow(unsafe_code)]
pub mod engine;
pub mod jobs;
pub mod plain;
pub mod sample;
pub mod timing;
pub mod value;
pub mod widths;
