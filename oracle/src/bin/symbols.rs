//! An independent rendering of the rule that `crates/smtlib` proves and `crates/symbols` runs: which bytes are a simple symbol of SMT-LIB
//! 2.6 and no reserved word. It answers the questions of `crates/symbols` from the standard's words, with nothing of that crate in it.
//!
//!     cargo run --release --manifest-path oracle/Cargo.toml --target-dir target/cargo --bin symbols \
//!         < crates/symbols/stdin > crates/symbols/stdout
use std::collections::HashSet;
use std::io::{self, Read, Write};

const GENERAL: &str = "! _ as BINARY DECIMAL exists HEXADECIMAL forall let match NUMERAL par STRING";

const COMMANDS: &str = "assert check-sat check-sat-assuming declare-const declare-datatype declare-datatypes \
    declare-fun declare-sort define-fun define-fun-rec define-funs-rec define-sort echo exit get-assertions get-assignment \
    get-info get-model get-option get-proof get-unsat-assumptions get-unsat-core get-value pop push reset reset-assertions \
    set-info set-logic set-option";

fn is_symbol(word: &[u8]) -> bool {
    let Ok(text) = std::str::from_utf8(word) else {
        return false;
    };
    let reserved: HashSet<&str> = GENERAL.split(' ').chain(COMMANDS.split(' ')).collect();
    assert_eq!(reserved.len(), 43);
    let may_stand = |c: char| c.is_ascii_alphanumeric() || "~!@$%^&*_-+=<>.?/".contains(c);
    match text.chars().next() {
        None => false,
        Some(first) => !first.is_ascii_digit() && text.chars().all(may_stand) && !reserved.contains(text),
    }
}

fn answer(yes: bool) -> &'static str {
    if yes { " yes" } else { " no" }
}

fn other_case(word: &str) -> String {
    let flipped = |c: char| if c.is_ascii_lowercase() { c.to_ascii_uppercase() } else { c.to_ascii_lowercase() };
    word.chars().map(flipped).collect()
}

fn main() -> io::Result<()> {
    let mut input = String::new();
    io::stdin().read_to_string(&mut input)?;
    let mut out = io::stdout().lock();
    for word in input.lines() {
        let tries = [word.to_string(), format!("{word}s"), word[..word.len() - 1].to_string(), other_case(word)];
        let answers: String = tries.iter().map(|w| answer(is_symbol(w.as_bytes()))).collect();
        writeln!(out, "{word}{answers}")?;
    }
    writeln!(out, "(no byte){}", answer(is_symbol(b"")))?;
    let long = "a".repeat(255);
    let tries = [long.clone(), format!("{}(", &long[1..]), format!("({}", &long[1..])];
    let answers: String = tries.iter().map(|w| answer(is_symbol(w.as_bytes()))).collect();
    writeln!(out, "(255 bytes){answers}")?;
    let single: Vec<u8> = (0..=255).filter(|b| is_symbol(&[*b])).collect();
    out.write_all(&single)?;
    writeln!(out, " {}", single.len())
}
