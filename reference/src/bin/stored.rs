//! Writes the stored case files, `cases-00` and so on, into a folder.

use std::path::PathBuf;

fn main() -> std::io::Result<()> {
    let Some(folder) = std::env::args_os().nth(1).map(PathBuf::from) else {
        eprintln!("usage: stored FOLDER");
        std::process::exit(2);
    };
    for (number, file) in reference::stored::files().iter().enumerate() {
        std::fs::write(folder.join(format!("cases-{number:02}")), file)?;
    }
    Ok(())
}
