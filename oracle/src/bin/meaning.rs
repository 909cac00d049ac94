//! Whether flattening keeps the meaning (W-208): compares tree and assertions in interpretations by chance.
//!
//!     oracle/meaning [FILES [SEED]]
//!
//! The files are those at every limit, those by chance of `oracle/run`, and as many small trees over few names. Of each whose text is no matter of dispute, so that
//! only 7, 15, 10 and 11 may be noted of it: no accepted file has a name free in a predicate of a ForAll that a ForAll inside that one binds, and where there is none tree
//! and assertions are the same in every interpretation. It prints how often they differ in the others, and ends with exit status 1 at the first file that breaks
//! this, with the smallest that it finds for it.
use oracle::chance::{asked, summed, Chance};
use oracle::faults::any_kind;
use oracle::limits::limits;
use oracle::meaning::{captures, Draw, Meaning};
use oracle::shrink::{hex, smallest};
use oracle::task::{decoded, noted, CLASH, MISCOUNTED, UNKNOWN};
use oracle::words::packed;
use std::process::ExitCode;

const FILES: usize = 200_000;

/// So many interpretations are drawn for a file; those in which too much would have to be judged are passed over.
const DRAWN: usize = 24;
const MOST_WORK: f64 = 20_000.0;

/// What may be noted of a file: one of these alone, or several.
const NAMES: [u8; 4] = [7, CLASH, UNKNOWN, MISCOUNTED];
const TITLES: [&str; 6] = ["accepted", "7 alone", "15 alone", "10 alone", "11 alone", "several"];

/// The row of a file in the table.
fn row(noted: &[u8]) -> Option<usize> {
    match noted {
        [] => Some(0),
        [refusal] => NAMES.iter().position(|name| name == refusal).map(|place| 1 + place),
        several => several.iter().all(|refusal| NAMES.contains(refusal)).then_some(1 + NAMES.len()),
    }
}

/// Interpretations with up to three values a sort, from those in which half of all predicates are false to those in which few are.
fn draw(chance: &mut Chance) -> Draw {
    Draw { seed: chance.below(1 << 53) as u64, values: 2 + chance.below(3) as u64, odds: [2, 3, 6, 20, 100][chance.below(5)] }
}

/// What was found of a file: its row, whether a name is captured in it, what tree and assertions are in each interpretation, and how many of these were passed over.
struct Found { row: usize, accepted: bool, captured: bool, meanings: Vec<(bool, bool)>, passed_over: usize }

/// The interpretations of a file are drawn by its bytes, so that what is found shows again.
fn found(file: &[u8], seed: u64) -> Option<Found> {
    let (task, noted) = (decoded(file).ok()?, noted(file).ok()?);
    let row = row(&noted)?;
    let mut chance = Chance::new(summed(seed, file.iter().copied()));
    let mut meaning = Meaning::new(&task);
    let draws: Vec<Draw> = (0..DRAWN).map(|_| draw(&mut chance)).filter(|draw| meaning.work((draw.values - 1) as f64) <= MOST_WORK).collect();
    let passed_over = DRAWN - draws.len();
    let meanings = draws.into_iter().map(|draw| meaning.holds(draw)).collect();
    Some(Found { row, accepted: noted.is_empty(), captured: captures(&task.constraint), meanings, passed_over })
}

impl Found {
    fn count(&self, tree: bool, assertions: bool) -> usize { self.meanings.iter().filter(|found| **found == (tree, assertions)).count() }
    fn differs(&self) -> bool { self.meanings.iter().any(|(tree, assertions)| tree != assertions) }
    fn breaks(&self) -> bool { if self.captured { self.accepted } else { self.differs() } }
}

fn any<'w>(chance: &mut Chance, words: &[&'w str]) -> &'w str { words[chance.below(words.len())] }

/// A Var, mostly; or another small expression over the same names.
fn expr(chance: &mut Chance) -> String {
    let (name, other) = (any(chance, &["'x", "'y", "'z"]), any(chance, &["'x", "'y", "'z"]));
    match chance.below(12) {
        0 => "1 1".to_string(),
        1 => "1 0".to_string(),
        2 => format!("8 5 {name}"),
        3 => format!("16 {other} 5 {name} 5 {other}"),
        4 => format!("20 {} #1 {other} 1 13 #2 5 {name} 5 {other}", chance.below(2)),
        5 => format!("19 {} 5 {name}", any(chance, &["'c", "'x"])),
        _ => format!("5 {name}"),
    }
}

/// A predicate: one in three is a KVar, which now and then has another name or one argument too few.
fn pred(chance: &mut Chance) -> String {
    match chance.below(24) {
        0..=5 => format!("0 'k #1 {}", expr(chance)),
        6 => format!("0 {} #1 {}", any(chance, &["'x", "'z"]), expr(chance)),
        7 => "0 'k #0".to_string(),
        _ => format!("1 {}", expr(chance)),
    }
}

/// A constraint of few ForAlls over the names x, y and z, of sorts with one text or another.
fn constraint(chance: &mut Chance, levels: usize) -> String {
    match if levels == 0 { 0 } else { chance.below(6) } {
        0 => format!("0 {}", pred(chance)),
        1 => {
            let members: Vec<String> = (0..chance.below(4)).map(|_| constraint(chance, levels - 1)).collect();
            format!("1 #{} {}", members.len(), members.join(" "))
        }
        _ => {
            let preds: Vec<String> = (0..chance.below(3)).map(|_| pred(chance)).collect();
            let (name, sort) = (any(chance, &["'x", "'y", "'z", "'u", "'v", "'w"]), any(chance, &["0", "1", "3", "11 'D #0", "8 #2 1"]));
            format!("2 {name} {sort} #{} {} {}", preds.len(), preds.join(" "), constraint(chance, levels - 1))
        }
    }
}

/// A small tree; some of its names are declared.
fn small(chance: &mut Chance) -> Vec<u8> {
    let ctor = any(chance, &["", "d: 'd #0 #1 'c #0", "d: 'D #0 #1 'c #1 'f 0"]);
    let constants: String = ["'x", "'y", "'z"].iter().filter(|_| chance.below(2) == 0).map(|name| format!("{name} 1 ")).collect();
    packed(&format!("{ctor} k: {constants} v: 'k #1 1 h: {}", constraint(chance, 6)))
}

/// For each row: files, those with a captured name, interpretations by tree and assertions, files with one in which both hold and one in which neither does, files in
/// which they differ, and interpretations passed over.
#[derive(Default)]
struct Table { rows: [[usize; 9]; TITLES.len()] }

impl Table {
    fn add(&mut self, found: &Found) {
        let [both, neither, tree, assertions] = [(true, true), (false, false), (true, false), (false, true)].map(|(tree, assertions)| found.count(tree, assertions));
        let telling = both > 0 && neither > 0;
        let counts = [1, found.captured as usize, both, neither, tree, assertions, telling as usize, found.differs() as usize, found.passed_over];
        self.rows[found.row].iter_mut().zip(counts).for_each(|(sum, count)| *sum += count);
    }

    fn print(&self) {
        let columns = ["files", "captured", "both", "neither", "tree only", "assertions", "telling", "differing", "passed over"];
        println!("{:<10}{}", "", columns.map(|title| format!("{title:>12}")).concat());
        TITLES.iter().zip(&self.rows).for_each(|(title, counts)| println!("{title:<10}{}", counts.map(|count| format!("{count:>12}")).concat()));
    }
}

fn report(kind: &str, file: &[u8], seed: u64) -> ExitCode {
    let small = smallest(file, |file| found(file, seed).is_some_and(|found| found.breaks()));
    println!("{kind}: accepted with a captured name, or tree and assertions differ without one");
    println!("smallest file, {} bytes: {}", small.len(), hex(&small));
    ExitCode::FAILURE
}

fn main() -> ExitCode {
    let (files, seed) = asked(FILES);
    let (mut chance, mut table, mut limits) = (Chance::new(seed), Table::default(), limits().into_iter());
    for turn in 0..files {
        let (kind, file) = match limits.next() {
            Some((name, case)) => (name.to_string(), case.file),
            None if turn % 2 == 0 => ("small".to_string(), small(&mut chance)),
            None => {
                let (kind, _, make) = any_kind(&mut chance);
                (kind.to_string(), make.case(&mut chance).file)
            }
        };
        let Some(found) = found(&file, seed) else { continue };
        if found.breaks() {
            return report(&kind, &file, seed);
        }
        table.add(&found);
    }
    table.print();
    println!("{files} files, 0 that break the rule");
    ExitCode::SUCCESS
}
