//! Two versions of the engine in turns: `versions BEFORE AFTER [BEFORE AFTER ..]`, each
//! the path of a version's program `turns`. `versions.sh` makes them and starts this.
//!
//! The programs are run two by two. Every job takes turns in both, and a time is the
//! tenth percentile of its turns. The table has the middle time of all pairs, the
//! middle ratio, and the least and the greatest ratio. A job that one version lacks
//! is not timed; it is named apart from the table.

#![deny(unsafe_code)]

use helvemoik_compare::timing::{at, calls_in_a_turn, shown};
use std::io::{BufRead, BufReader, Write};
use std::process::{Child, ChildStdin, ChildStdout, Command, Stdio};

/// How many turns a job takes in each program.
const TURNS: usize = 200;

/// A turn lasts so many nanoseconds, or one call.
const TURN: f64 = 100_000.0;

/// A version's program, and the jobs that it has.
struct Version {
    child: Child,
    input: ChildStdin,
    output: BufReader<ChildStdout>,
    jobs: Vec<String>,
}

impl Version {
    fn start(program: &str) -> Self {
        let mut child = Command::new(program)
            .stdin(Stdio::piped())
            .stdout(Stdio::piped())
            .spawn()
            .expect("a program that starts");
        let input = child.stdin.take().expect("its input");
        let output = BufReader::new(child.stdout.take().expect("its output"));
        let jobs = Vec::new();
        let mut version = Version {
            child,
            input,
            output,
            jobs,
        };
        loop {
            match version.line() {
                line if line.is_empty() => return version,
                line => version.jobs.push(line),
            }
        }
    }

    fn line(&mut self) -> String {
        let mut line = String::new();
        self.output.read_line(&mut line).expect("readable output");
        assert!(line.ends_with('\n'), "a program that goes on");
        line.trim_end().to_string()
    }

    /// The time of one call of so many, in nanoseconds.
    fn time(&mut self, job: usize, count: u32) -> f64 {
        writeln!(self.input, "{job} {count}").expect("a program that goes on");
        self.line().parse().expect("a time")
    }

    fn stop(mut self) {
        drop(self.input);
        self.child.wait().expect("a program that ends");
    }
}

/// A job that both versions have, and its place in the list of each.
#[derive(PartialEq, Eq)]
struct Shared {
    name: String,
    places: [usize; 2],
}

/// The jobs that both versions have, in the order of the first.
fn shared([before, after]: &[Version; 2]) -> Vec<Shared> {
    let place_after = |name| after.jobs.iter().position(|job| job == name);
    let jobs = before.jobs.iter().enumerate();
    jobs.filter_map(|(place, name)| {
        Some(Shared {
            name: name.clone(),
            places: [place, place_after(name)?],
        })
    })
    .collect()
}

/// The jobs that the other version lacks.
fn lacking<'a>(version: &'a Version, other: &'a Version) -> impl Iterator<Item = &'a String> {
    let jobs = version.jobs.iter();
    jobs.filter(|job| !other.jobs.contains(job))
}

/// The times of a job in both versions, turn by turn.
fn race(versions: &mut [Version; 2], job: &Shared) -> [f64; 2] {
    let places = job.places;
    let counts = [0, 1].map(|k| calls_in_a_turn(TURN, |count| versions[k].time(places[k], count)));
    let mut times = [Vec::new(), Vec::new()];
    for _ in 0..TURNS {
        for k in [0, 1] {
            times[k].push(versions[k].time(places[k], counts[k]));
        }
    }
    times.map(|times| at(0.1, times))
}

/// Names the jobs that are not timed.
fn tell_lacking([before, after]: &[Version; 2]) {
    for job in lacking(before, after) {
        eprintln!("only before: {job}");
    }
    for job in lacking(after, before) {
        eprintln!("only after: {job}");
    }
}

fn main() {
    let programs: Vec<String> = std::env::args().skip(1).collect();
    assert!(
        !programs.is_empty() && programs.len().is_multiple_of(2),
        "versions BEFORE AFTER [BEFORE AFTER ..]"
    );
    let mut jobs = Vec::new();
    let mut times: Vec<Vec<[f64; 2]>> = Vec::new();
    for pair in programs.chunks_exact(2) {
        let mut versions = [0, 1].map(|k| Version::start(&pair[k]));
        let shared = shared(&versions);
        if jobs.is_empty() {
            tell_lacking(&versions);
            times.resize(shared.len(), Vec::new());
            jobs = shared;
        } else {
            assert!(jobs == shared, "the same jobs in every pair");
        }
        for (job, times) in jobs.iter().zip(&mut times) {
            times.push(race(&mut versions, job));
        }
        versions.into_iter().for_each(Version::stop);
    }
    assert!(!jobs.is_empty(), "a job that both versions have");
    println!("| job | values | before | after | ratio | least | greatest |");
    println!("| --- | --- | ---: | ---: | ---: | ---: | ---: |");
    for (Shared { name, .. }, times) in jobs.iter().zip(&times) {
        let [before, after] = [0, 1].map(|k| shown(at(0.5, times.iter().map(|t| t[k]))));
        let ratio = |part| at(part, times.iter().map(|t| t[1] / t[0]));
        let [least, middle, greatest] = [0.0, 0.5, 1.0].map(ratio);
        println!("| {name} | {before} | {after} | {middle:.2} | {least:.2} | {greatest:.2} |");
    }
}
