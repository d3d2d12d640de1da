//! Writes a case file to standard output.
//!
//! `cases SEED COUNT [LARGEST]` writes COUNT cases. Equal seeds give equal
//! files, and case i is the same for every COUNT above i. No number handed to
//! a call is above LARGEST (4294967295 if not given): for an implementation
//! that takes its numbers in fewer bits. The format stands in `case_file.rs`.

use std::io::{self, BufWriter, Write};

fn main() -> io::Result<()> {
    let numbers: Option<Vec<u64>> = std::env::args().skip(1).map(|a| a.parse().ok()).collect();
    let (seed, count, largest) = match numbers.as_deref() {
        Some(&[seed, count]) => (seed, count, u32::MAX),
        Some(&[seed, count, largest]) => (seed, count, u32::try_from(largest).unwrap_or(u32::MAX)),
        _ => {
            eprintln!("usage: cases SEED COUNT [LARGEST]");
            std::process::exit(2);
        }
    };
    let mut out = BufWriter::new(io::stdout().lock());
    for case in 0..count {
        out.write_all(&reference::case_file::made(seed, case, largest))?;
    }
    out.flush()
}
