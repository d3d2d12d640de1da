//! Reads a policy text from standard input and writes its labels and tuples,
//! or the refusal and its line.

use std::io::{self, Read, Write};

fn main() -> io::Result<()> {
    let mut text = Vec::new();
    io::stdin().read_to_end(&mut text)?;
    io::stdout().write_all(reference::lister::list(&text).as_bytes())
}
