//! Jobs timed in turns.

use std::hint::black_box;
use std::time::{Duration, Instant};

/// How often the jobs take turns at most, how long a turn lasts at least, and
/// how long all turns may take. Turns are short, so that many find the
/// machine idle.
const ROUNDS: usize = 1000;
const TURN: Duration = Duration::from_micros(200);
const ALL_TURNS: Duration = Duration::from_secs(5);

/// A job to time: it does its call so many times.
pub type Job<'a> = Box<dyn FnMut(u32) + 'a>;

/// A job of a call whose answer nobody needs.
pub fn job<'a, T>(mut call: impl FnMut() -> T + 'a) -> Job<'a> {
    Box::new(move |count| {
        for _ in 0..count {
            // By reference: a large answer is not copied once more.
            black_box(&call());
        }
    })
}

/// Times jobs in turns: the time of one call of each, in nanoseconds, that a
/// tenth of its turns stayed below. The turns above it are those that other
/// work of the machine came between.
pub fn race<const N: usize>(mut jobs: [Job; N]) -> [f64; N] {
    let turn = TURN.as_nanos() as f64;
    let counts = jobs
        .each_mut()
        .map(|job| calls_in_a_turn(turn, |count| time(job, count)));
    let mut times = [const { Vec::new() }; N];
    let start = Instant::now();
    for _ in 0..ROUNDS {
        for ((job, count), times) in jobs.iter_mut().zip(counts).zip(&mut times) {
            times.push(time(job, count));
        }
        if start.elapsed() > ALL_TURNS {
            break;
        }
    }
    times.map(|times| at(0.1, times))
}

/// How many calls last so many nanoseconds, where this is the time of one call
/// of so many.
pub fn calls_in_a_turn(turn: f64, mut time: impl FnMut(u32) -> f64) -> u32 {
    let mut count = 1;
    while time(count) * f64::from(count) < turn {
        count *= 2;
    }
    count
}

/// What lies so far up in the sorted numbers, from 0, the least, to 1.
pub fn at(part: f64, numbers: impl IntoIterator<Item = f64>) -> f64 {
    let mut sorted: Vec<f64> = numbers.into_iter().collect();
    sorted.sort_by(f64::total_cmp);
    sorted[((sorted.len() - 1) as f64 * part) as usize]
}

/// The time of one call of so many, in nanoseconds.
pub fn time(job: &mut Job, count: u32) -> f64 {
    let start = Instant::now();
    job(count);
    start.elapsed().as_nanos() as f64 / f64::from(count)
}

/// A time in nanoseconds, with three figures.
pub fn shown(nanoseconds: f64) -> String {
    let (number, unit) = match nanoseconds {
        n if n < 1e3 => (n, "ns"),
        n if n < 1e6 => (n / 1e3, "µs"),
        n => (n / 1e6, "ms"),
    };
    let places = match number {
        n if n < 10.0 => 2,
        n if n < 100.0 => 1,
        _ => 0,
    };
    format!("{number:.places$} {unit}")
}
