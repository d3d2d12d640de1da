//! The lister in plain Rust: reads a policy text from standard input and writes its
//! report, the same bytes, to standard output.

#![deny(unsafe_code)]

use helvemoik_compare::boundary::TEXT_BYTES;
use helvemoik_compare::plain::lister::report;
use std::fs::File;
use std::io::{self, stdin, stdout, Read};
use std::os::fd::AsFd;

fn main() -> io::Result<()> {
    let mut text = Vec::new();
    // One byte more than a text may have is enough to refuse it.
    let most = TEXT_BYTES as u64 + 1;
    stdin().lock().take(most).read_to_end(&mut text)?;
    // Standard output as a file: what is written there is not looked through for lines.
    report(
        &text,
        &mut File::from(stdout().as_fd().try_clone_to_owned()?),
    )
}
