//! Reads a task file from standard input and writes its script in an edition to standard output, or one line `refused N`.
//!
//!     cargo run --example script -- z3|cvc5 < TASK
use jiggerreef::{script, survey, Edition, Refusal};
use std::io::{self, Read, Write};

fn scripted(file: &[u8], edition: Edition) -> Result<Vec<u8>, Refusal> {
    let mut buf = vec![0; survey(file, edition)?.bytes];
    script(file, edition, &mut buf)?;
    Ok(buf)
}

fn main() -> io::Result<()> {
    let edition = match std::env::args().nth(1).as_deref() {
        Some("z3") => Edition::Z3,
        Some("cvc5") => Edition::Cvc5,
        _ => return Err(io::Error::other("the edition is z3 or cvc5")),
    };
    let mut file = Vec::new();
    io::stdin().read_to_end(&mut file)?;
    let text = scripted(&file, edition).unwrap_or_else(|refusal| format!("{refusal}\n").into_bytes());
    io::stdout().write_all(&text)
}
