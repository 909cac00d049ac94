//! Compares the rendering with the source's own two files, on files at limits and by chance: the scripts of accepted files, and of every file that
//! decodes whether the source's writer returns. Where it panics, the form that it panics on has a refusal, and the rendering answers that one or one
//! that is judged before it.
//!
//!     oracle/upstream/run DIRECTORY [FILES [SEED]]
//!
//! The two files stand unchanged in the directory named and are no part of this repository. Other refusals cannot be compared with the
//! source: it has none.
mod convert;
mod types;

include!(concat!(env!("OUT_DIR"), "/modules.rs"));

use oracle::chance::{asked, Chance};
use oracle::faults::any_kind;
use oracle::limits::limits;
use oracle::returns::returns;
use oracle::shrink::hex;
use oracle::task::{accepted, decoded, REFUSALS};
use oracle::strings::read;
use oracle::text::{rendered, Edition};
use std::panic::{catch_unwind, set_hook, AssertUnwindSafe};
use std::{any::Any, collections::BTreeMap, process::ExitCode};
use types::*;

const FILES: usize = 100_000;

/// What was compared: a script, and whether strings in it have quotation marks; or that the writer panics, with the refusals of the form and of
/// the file; nothing for a file that does not decode.
enum Compared { Script(bool), Return, Panic(u8, u8), Nothing, Difference }

/// The refusal of the form that the source panics on, by a word of its message.
fn refusal_of(message: &str) -> Option<u8> {
    let words = [("constructors", 5), ("width", 12), ("output sort", 13), ("unqualified", 13), ("weak", 14)];
    words.iter().find(|(word, _)| message.contains(word)).map(|(_, refusal)| *refusal)
}

/// The message of a panic: the source makes some by a format.
fn message(panic: &(dyn Any + Send)) -> &str {
    panic.downcast_ref::<&str>().copied().or(panic.downcast_ref::<String>().map(String::as_str)).unwrap_or("")
}

fn panicked(file: &[u8], message: &str) -> Compared {
    let judged = |refusal: u8| REFUSALS.iter().position(|other| *other == refusal);
    match (refusal_of(message), accepted(file).err()) {
        (Some(form), Some(refusal)) if judged(refusal) <= judged(form) => Compared::Panic(form, refusal),
        _ => Compared::Difference,
    }
}

fn compared(file: &[u8]) -> Compared {
    let Ok(task) = decoded(file) else { return Compared::Nothing };
    let returns = returns(&task);
    let task = convert::task(task);
    let script = match catch_unwind(AssertUnwindSafe(|| smt_horn::SmtFormatter(&task).to_string())) {
        Ok(script) => script,
        Err(_) if returns => return Compared::Difference,
        Err(panic) => return panicked(file, message(&*panic)),
    };
    match rendered(file, Edition::Z3) {
        _ if !returns => Compared::Difference,
        Ok(rendered) => {
            // Of the quotation marks that the rendering writes twice the source writes one (W-203)
            let once = read(&rendered.script).once;
            if once == script { Compared::Script(once != rendered.script) } else { Compared::Difference }
        }
        Err(_) => Compared::Return,
    }
}

fn main() -> ExitCode {
    let (files, seed) = asked(FILES);
    let (mut chance, mut scripts, mut with_quotes, mut others, mut panics) = (Chance::new(seed), 0, 0, 0, BTreeMap::new());
    set_hook(Box::new(|_| ()));
    let by_chance = (0..files).map(|_| any_kind(&mut chance).2.case(&mut chance).file);
    for file in limits().into_iter().map(|(_, case)| case.file).chain(by_chance) {
        match compared(&file) {
            Compared::Script(quoted) => {
                scripts += 1;
                with_quotes += quoted as usize;
            }
            Compared::Return => others += 1,
            Compared::Panic(form, refusal) => {
                let (all, own) = panics.entry(form).or_insert((0, 0));
                *all += 1;
                *own += (form == refusal) as usize;
            }
            Compared::Nothing => (),
            Compared::Difference => {
                println!("a difference at {}", hex(&file));
                return ExitCode::FAILURE;
            }
        }
    }
    let (all, own) = panics.values().fold((0, 0), |(all, own), counts| (all + counts.0, own + counts.1));
    println!("{with_quotes} of the scripts have quotation marks in strings; of each two the source writes one");
    println!("{scripts} scripts, {all} refused files on which the source panics, {others} on which it returns, 0 differences");
    println!("files on which it panics, by the refusal of the form, and those of them that get it: {panics:?}, in all {own}");
    ExitCode::SUCCESS
}
