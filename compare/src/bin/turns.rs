//! The engine's jobs, made in turns that another program asks for.
//!
//! First the jobs are written, a line each. For a line `J C` of the input, job J is
//! done C times, and the time of one call in nanoseconds is written.

#![deny(unsafe_code)]

use helvemoik_compare::engine::Archive;
use helvemoik_compare::jobs::{of_engine, NAMES};
use helvemoik_compare::sample::{Sample, FORM_1_SIZES, FORM_2_SIZES, FORM_3_SIZES};
use helvemoik_compare::timing::{time, Job};
use helvemoik_compare::widths::{Widths, Widths16x16, Widths8x16, Widths8x8};
use std::io::{stdin, BufRead};

/// Names the jobs on some samples, and adds them to the list.
fn add<'a, W: Widths>(jobs: &mut Vec<Job<'a>>, samples: &'a [Sample<W>]) {
    for sample in samples {
        for (name, job) in NAMES.iter().zip(of_engine(&Archive, sample)) {
            println!("{name} | {}", sample.size);
            jobs.push(job);
        }
    }
}

fn main() {
    let form_1 = FORM_1_SIZES.map(Sample::<Widths8x8>::of);
    let form_2 = FORM_2_SIZES.map(Sample::<Widths8x16>::of);
    let form_3 = FORM_3_SIZES.map(Sample::<Widths16x16>::of);
    let mut jobs = Vec::new();
    add(&mut jobs, &form_1);
    add(&mut jobs, &form_2);
    add(&mut jobs, &form_3);
    println!();
    for line in stdin().lock().lines() {
        let line = line.expect("readable input");
        let numbers: Vec<u32> = line
            .split(' ')
            .map(|number| number.parse().expect("a number"))
            .collect();
        println!("{}", time(&mut jobs[numbers[0] as usize], numbers[1]));
    }
}
