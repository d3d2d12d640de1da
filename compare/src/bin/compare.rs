//! `compare SEED TEXTS CALLS [CASE]`: the proved engine beside the second
//! implementation on so many texts and at least so many calls, or on one case
//! of them alone. Prints what was covered, or the first difference.

#![deny(unsafe_code)]

use helvemoik_compare::comparison::{compare, compare_case, Coverage, Plan};
use helvemoik_compare::engine::Archive;
use std::env::args;
use std::process::ExitCode;

fn main() -> ExitCode {
    let numbers: Option<Vec<u64>> = args().skip(1).map(|word| word.parse().ok()).collect();
    let (plan, case) = match numbers.as_deref() {
        Some(&[seed, texts, calls]) => (Plan { seed, texts, calls }, None),
        Some(&[seed, texts, calls, case]) => (Plan { seed, texts, calls }, Some(case)),
        _ => {
            eprintln!("usage: compare SEED TEXTS CALLS [CASE]");
            return ExitCode::from(2);
        }
    };
    let covered = match case {
        None => compare(&Archive, plan),
        Some(case) => {
            let mut coverage = Coverage::default();
            compare_case(&Archive, plan, case, &mut coverage).map(|()| coverage)
        }
    };
    match covered {
        Ok(coverage) => {
            println!("{coverage}no difference, seed {}", plan.seed);
            ExitCode::SUCCESS
        }
        Err(difference) => {
            println!("{difference}");
            ExitCode::FAILURE
        }
    }
}
