//! The engine's time beside plain Rust's, in one run.
//!
//! Plain Rust is measured twice: with its own policy value by reference, and
//! behind the engine's boundary, where it too is handed policies, with their words as
//! numbers, and boards by value. Where it compiles and lists it is measured once more,
//! by reference and by 64 pairs of sets at once. A time is that of one call, the tenth
//! percentile of many turns, and a ratio the engine's time by the other. Buffers are long
//! enough, and are used again and not cleared between the calls.

#![deny(unsafe_code)]

use helvemoik_compare::engine::Archive;
use helvemoik_compare::for_all_sizes;
use helvemoik_compare::jobs::{by_64, by_reference, of_engine, NAMES, NAMES_BY_64};
use helvemoik_compare::plain::Plain;
use helvemoik_compare::sample::{growing, Sample, Size};
use helvemoik_compare::timing::{race, shown, Job};
use helvemoik_compare::widths::{Widths, Widths16x16};

fn main() {
    println!(
        "| job | values | engine | plain Rust | ratio | plain Rust behind the boundary | ratio \
         | plain Rust, 64 at once | ratio |"
    );
    println!("| --- | --- | ---: | ---: | ---: | ---: | ---: | ---: | ---: |");
    for_all_sizes!(measure);
    println!();
    growth();
}

/// All jobs on the sample of a size.
fn measure<W: Widths>(size: Size) {
    let sample = Sample::<W>::of(size);
    let engine = of_engine(&Archive, &sample).into_iter();
    let plain = by_reference(&sample).into_iter();
    let behind = of_engine(&Plain, &sample).into_iter();
    let mut at_once = NAMES_BY_64.iter().zip(by_64(&sample)).peekable();
    for (((name, engine), plain), behind) in NAMES.iter().zip(engine).zip(plain).zip(behind) {
        let row = match at_once.next_if(|(by_64, _)| *by_64 == name) {
            Some((_, by_64)) => row(race([engine, plain, behind, by_64])),
            None => row(race([engine, plain, behind])) + " | |",
        };
        println!("| {name} | {size} {row}");
    }
    assert!(at_once.peek().is_none(), "a job out of order");
}

/// The engine's time, and each other with its ratio.
fn row<const N: usize>(times: [f64; N]) -> String {
    let engine = times[0];
    let others = times[1..].iter().map(|&time| {
        let ratio = engine / time;
        format!(" {} | {ratio:.2} |", shown(time))
    });
    format!("| {} |{}", shown(engine), others.collect::<String>())
}

/// How compiling and listing grow with the values, by the engine and by plain Rust that
/// takes 64 pairs of sets at once: the time of a call, and that by the pairs of sets.
fn growth() {
    println!(
        "| job | values | pairs of sets | engine | by pair | plain Rust, 64 at once | by pair | ratio |"
    );
    println!("| --- | --- | ---: | ---: | ---: | ---: | ---: | ---: |");
    let samples: Vec<_> = growing().map(Sample::<Widths16x16>::of).collect();
    for (place, name) in NAMES_BY_64.iter().enumerate() {
        for sample in &samples {
            let engine = engine_job(name, sample);
            let plain = by_64(sample).into_iter().nth(place).expect("a job");
            let times = race([engine, plain]);
            let (size, pairs) = (sample.size, sample.size.pairs_of_sets());
            let [engine, plain] = times.map(|time| {
                let by_pair = time / pairs as f64;
                format!("{} | {by_pair:.2} ns", shown(time))
            });
            let (values, ratio) = (size.values, times[0] / times[1]);
            println!(
                "| {name} | {values} + {values} | {pairs} | {engine} | {plain} | {ratio:.2} |"
            );
        }
    }
}

/// The engine's job of a name.
fn engine_job<'a, W: Widths>(name: &str, sample: &'a Sample<W>) -> Job<'a> {
    let mut jobs = NAMES.iter().zip(of_engine(&Archive, sample));
    jobs.find(|(of, _)| *of == &name).expect("a job").1
}
