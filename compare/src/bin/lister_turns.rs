//! `lister_turns [LISTER]`: the lister and plain Rust that writes the same bytes, each a
//! program run from start to end, by turns. LISTER is the path of the lister, else the one
//! that stands under the repository's target folder; the other is beside this program.
//!
//! What they write is compared byte by byte once. Then it goes to `/dev/null`, or through a
//! pipe into this program, which drops it. A time is the tenth percentile of all turns.

#![deny(unsafe_code)]

use helvemoik_compare::sample::{granting_all, granting_half};
use helvemoik_compare::timing::{at, shown};
use std::env;
use std::io::{Read, Write};
use std::path::{Path, PathBuf};
use std::process::{Child, Command, Stdio};
use std::time::Instant;

/// How many turns each program takes.
const TURNS: usize = 21;

/// How much is taken out of a pipe at once.
const PIPE: usize = 1 << 16;

fn main() {
    let [lister, plain] = [lister(), plain_lister()];
    println!("| granted | bytes | written to | lister | plain Rust | ratio |");
    println!("| --- | ---: | --- | ---: | ---: | ---: |");
    for (name, text) in [("all", granting_all()), ("half", granting_half())] {
        let bytes = written(&lister, &text);
        assert!(bytes == written(&plain, &text), "{name}: other bytes");
        for (name_of, run) in [("/dev/null", to_null as Run), ("a pipe", to_pipe)] {
            let times = race([&lister, &plain], &text, run);
            let [lister, plain] = times.map(shown);
            let (length, ratio) = (bytes.len(), times[0] / times[1]);
            println!("| {name} | {length} | {name_of} | {lister} | {plain} | {ratio:.2} |");
        }
    }
}

fn lister() -> PathBuf {
    let built = || Path::new(env!("CARGO_MANIFEST_DIR")).join("../target/bin/lister");
    env::args().nth(1).map_or_else(built, PathBuf::from)
}

fn plain_lister() -> PathBuf {
    let this = env::current_exe().expect("the path of this program");
    this.with_file_name("plain_lister")
}

/// The whole run of a program on a text.
type Run = fn(&Path, &[u8]);

/// The time of a run of each, in nanoseconds, that a tenth of its turns stayed below.
fn race(programs: [&PathBuf; 2], text: &[u8], run: Run) -> [f64; 2] {
    let mut times = [Vec::new(), Vec::new()];
    for _ in 0..TURNS {
        for (program, times) in programs.iter().zip(&mut times) {
            let start = Instant::now();
            run(program, text);
            times.push(start.elapsed().as_nanos() as f64);
        }
    }
    times.map(|times| at(0.1, times))
}

/// A program that was handed a text and nothing behind it.
fn started(program: &Path, text: &[u8], output: Stdio) -> Child {
    let mut command = Command::new(program);
    let mut child = command
        .stdin(Stdio::piped())
        .stdout(output)
        .spawn()
        .unwrap_or_else(|error| panic!("{}: {error}", program.display()));
    let mut input = child.stdin.take().expect("its input");
    input.write_all(text).expect("a program that reads");
    child
}

fn ended(mut child: Child) {
    assert!(child.wait().expect("a program that ends").success());
}

fn to_null(program: &Path, text: &[u8]) {
    ended(started(program, text, Stdio::null()));
}

fn to_pipe(program: &Path, text: &[u8]) {
    let mut child = started(program, text, Stdio::piped());
    let mut output = child.stdout.take().expect("its output");
    let mut dropped = [0; PIPE];
    while output.read(&mut dropped).expect("readable output") > 0 {}
    ended(child);
}

/// All that a program writes for a text.
fn written(program: &Path, text: &[u8]) -> Vec<u8> {
    let mut child = started(program, text, Stdio::piped());
    let mut output = child.stdout.take().expect("its output");
    let mut bytes = Vec::new();
    output.read_to_end(&mut bytes).expect("readable output");
    ended(child);
    bytes
}
