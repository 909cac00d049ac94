//! Reads a task file in words (see `oracle::words`) from standard input and writes its bytes to standard output. A line that begins with
//! `;` is a comment.
//!
//!     cargo run --release --manifest-path oracle/Cargo.toml --target-dir target/cargo --bin pack < words > task
use oracle::words::{joined, sections, USUAL};
use std::io::{self, Read, Write};
use std::process::ExitCode;

fn main() -> io::Result<ExitCode> {
    let mut input = String::new();
    io::stdin().read_to_string(&mut input)?;
    let words: Vec<&str> = input.lines().filter(|line| !line.starts_with(';')).collect();
    match sections(&words.join("\n"), USUAL) {
        Ok(sections) => io::stdout().write_all(&joined(&sections)).map(|()| ExitCode::SUCCESS),
        Err(word) => {
            eprintln!("pack: {word} is no word");
            Ok(ExitCode::FAILURE)
        }
    }
}
