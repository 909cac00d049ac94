//! Records task files with their answers, for `crates/replay` and `crates/replay_long`.
//!
//!     cargo run --release --manifest-path oracle/Cargo.toml --target-dir target/cargo --bin vectors -- crates
//!
//! For each case it writes `NAME.task`, the bytes, and `NAME.answer` into `replay/data` of the directory named, or into `replay_long/data`
//! where it takes long to replay (LONG), and the names into `args` beside `data`, one to a line. An answer is that in the edition of Z3 and then that of cvc5. The first line of each is `P parts, A assertions, L bytes, longest M`
//! or `refused N`. For an accepted file there are two more: `script H`, the checksum of the script, and `ends K`, that of the ends of its parts, each as
//! 8 bytes, little-endian. A checksum starts with 1 and takes a byte by `h * 257 + byte`, modulo a prime number.
use oracle::chance::{Chance, SEED};
use oracle::check::checked;
use oracle::faults::{Case, KINDS};
use oracle::limits::limits;
use oracle::text::sizes;
use std::{env, fs, io, path::Path};

/// A kind has a file for so much of its share, and at least FEWEST. They are at most LONGEST bytes long.
const SHARE: usize = 10;
const FEWEST: usize = 3;
const LONGEST: usize = 8000;
const TRIES: usize = 100;

/// A program of the gate has two minutes. Each part of a script is asked for with a walk of its own over the file, so parts times bytes tell how long
/// a file takes: those of more than this are left to a program of their own.
const LONG: usize = 300_000_000;

/// The largest prime number below 2^55: a step of the checksum stays below 2^64.
const MODULUS: u64 = 36_028_797_018_963_913;

fn checksum(bytes: impl IntoIterator<Item = u8>) -> u64 { bytes.into_iter().fold(1, |sum, byte| (sum * 257 + byte as u64) % MODULUS) }

/// The number of parts, 0 for a refusal.
fn parts(answer: &str) -> usize {
    answer.split_once(" parts,").map_or(0, |(parts, _)| parts.parse().expect("a number"))
}

fn answer(file: &[u8]) -> String {
    match checked(file) {
        Ok(renderings) => renderings.iter().map(|rendering| {
            let ends = rendering.ends.iter().flat_map(|end| (*end as u64).to_le_bytes());
            format!("{}\nscript {}\nends {}\n", sizes(rendering), checksum(rendering.script.bytes()), checksum(ends))
        }).collect(),
        Err(refusal) => format!("refused {refusal}\n").repeat(2),
    }
}

/// The limits, and some files of each kind by chance; kinds of one fault have names that say so.
fn cases() -> Vec<(String, Case)> {
    let (mut cases, mut chance) = (limits(), Chance::new(SEED));
    for (kind, share, make) in &KINDS {
        let kind = if kind.starts_with(|c: char| c.is_ascii_digit()) { format!("fault-{kind}") } else { kind.to_string() };
        // A kind whose files are all longer is left to the limits
        let short = (0..TRIES).map(|_| make.case(&mut chance)).filter(|case| case.file.len() <= LONGEST);
        cases.extend(short.take(FEWEST.max(share / SHARE)).enumerate().map(|(i, case)| (format!("{kind}-{:02}", i + 1), case)));
    }
    cases
}

fn main() -> io::Result<()> {
    let argument = env::args().nth(1).expect("the directory of the crates");
    let crates = ["replay", "replay_long"].map(|name| Path::new(&argument).join(name));
    let (mut names, mut bytes) = ([String::new(), String::new()], 0);
    for directory in &crates {
        fs::create_dir_all(directory.join("data"))?;
    }
    for (name, case) in cases() {
        let answer = answer(&case.file);
        let refused = answer.lines().next().and_then(|line| line.strip_prefix("refused ")).map_or(0, |number| number.parse().expect("a number"));
        assert!(case.due.is_none_or(|due| due == refused), "{name}");
        let long = usize::from(parts(&answer) * case.file.len() > LONG);
        fs::write(crates[long].join(format!("data/{name}.task")), &case.file)?;
        fs::write(crates[long].join(format!("data/{name}.answer")), answer)?;
        names[long] += &format!("{name}\n");
        bytes += case.file.len();
    }
    eprintln!("{} cases, {bytes} bytes of files", names.concat().lines().count());
    for (directory, names) in crates.iter().zip(names) {
        fs::write(directory.join("args"), names)?;
    }
    Ok(())
}
