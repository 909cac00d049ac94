//! Measures the archive's calls beside the rendering of the same file in Rust and beside a copy of the script.
//!
//!     bench/run [SECONDS]
//!
//! Three tables are printed: the calls beside rendering and copy; all parts in runs beside script and beside single parts; and the time for each
//! byte of file and script at a quarter, a half and the whole of a case's size, how it grows from a quarter to the whole, and how that of survey
//! grows from a half.
//! What is measured takes turns, round after round for so many seconds a case, and the shortest time of each counts, so other work of the
//! machine falls on all alike.
mod cases;

use cases::{Case, BY_RUNS, CASES, WHOLE};
use jiggerreef::Edition;
use oracle::text::rendered;
use std::hint::black_box;
use std::time::Instant;
use Measured::{Copied, Parts, Rendering, Runs, Script, Survey};

/// The seconds and the rounds that a case is measured for at least.
const SECONDS: f64 = 2.0;
const ROUNDS: usize = 10;

/// A time is that of so many calls that they take this many seconds together: reading the clock is little beside that.
const LEAST: f64 = 20e-6;

/// Of a script with more parts than MANY_PARTS, SAMPLED parts are measured for all, and so it is with runs.
const MANY_PARTS: usize = 500;
const SAMPLED: usize = 50;

/// How many parts a run has, at most.
const RUN_PARTS: [usize; 4] = [1, 16, 256, usize::MAX];

/// The edition of the rendering that is measured beside one of the archive's.
fn rendering_edition(edition: Edition) -> oracle::text::Edition {
    match edition {
        Edition::Z3 => oracle::text::Edition::Z3,
        Edition::Cvc5 => oracle::text::Edition::Cvc5,
    }
}

/// A file and its script in an edition. The buffer is as long as the script and was written to before, and the table of lengths as long as it has parts.
struct Subject { file: Vec<u8>, edition: Edition, script: String, buf: Vec<u8>, parts: usize, lengths: Vec<u32> }

impl Subject {
    /// The archive has to write what the rendering writes, and in one run too.
    fn new(file: Vec<u8>, edition: Edition) -> Self {
        let rendering = rendered(&file, rendering_edition(edition)).expect("an accepted file");
        let parts = rendering.ends.len();
        let (mut buf, mut lengths) = (vec![b' '; rendering.script.len()], vec![0; parts]);
        assert!(jiggerreef::script(&file, edition, &mut buf) == Ok(buf.len()) && buf == rendering.script.as_bytes());
        buf.fill(b' ');
        assert!(jiggerreef::run(&file, edition, 0, parts, &mut buf, &mut lengths) == Ok(buf.len()) && buf == rendering.script.as_bytes());
        assert!((0..parts).all(|i| lengths[i] as usize == rendering.part(i).len()));
        Subject { file, edition, script: rendering.script, buf, parts, lengths }
    }

    fn bytes(&self) -> usize { self.file.len() + self.script.len() }

    /// The time of one run behind the other, each of so many parts.
    fn by_runs(&mut self, run_parts: usize) -> f64 {
        let Subject { file, edition, buf, parts, lengths, .. } = self;
        for_all(parts.div_ceil(run_parts), |i| {
            let first = i * run_parts;
            jiggerreef::run(file, *edition, first, run_parts.min(*parts - first), buf, lengths).is_ok()
        })
    }
}

/// Whether of so many calls some are measured for all.
fn is_sampled(calls: usize) -> bool { calls > MANY_PARTS }

/// The time of so many calls, one after another.
fn for_all(calls: usize, mut call: impl FnMut(usize) -> bool) -> f64 {
    let middle = |i: usize| (2 * i + 1) * calls / (2 * SAMPLED);
    let sample: Vec<usize> = if is_sampled(calls) { (0..SAMPLED).map(middle).collect() } else { (0..calls).collect() };
    seconds(|| sample.iter().all(|i| call(*i))) * calls as f64 / sample.len() as f64
}

/// What is measured: the calls, all parts one after another, all in runs of so many, the whole way of the rendering, and a copy of the script.
#[derive(Clone, Copy)]
enum Measured { Survey, Script, Parts, Runs(usize), Rendering, Copied }

impl Measured {
    /// Its time in seconds.
    fn time(self, subject: &mut Subject) -> f64 {
        let Subject { file, edition, script, buf, parts, .. } = subject;
        match self {
            Survey => seconds(|| jiggerreef::survey(file, *edition)),
            Script => seconds(|| jiggerreef::script(file, *edition, buf)),
            Parts => for_all(*parts, |i| jiggerreef::part(file, *edition, i, buf).is_ok()),
            Runs(run_parts) => subject.by_runs(run_parts),
            Rendering => seconds(|| rendered(black_box(file), rendering_edition(*edition))),
            Copied => seconds(|| black_box(&mut *buf).copy_from_slice(black_box(script.as_bytes()))),
        }
    }
}

/// The time of one call among as many as take LEAST.
fn seconds<T>(mut call: impl FnMut() -> T) -> f64 {
    let mut calls = 1;
    loop {
        let start = Instant::now();
        (0..calls).for_each(|_| drop(black_box(call())));
        let taken = start.elapsed().as_secs_f64();
        if taken >= LEAST {
            return taken / calls as f64;
        }
        calls *= 2;
    }
}

/// The shortest times for each subject. What comes first with one file of many takes longer, as the file is not in the caches yet; if `turned`, each
/// round begins with another of those that are measured.
fn shortest<const N: usize>(subjects: &mut [Subject], measured: [Measured; N], at_least: f64, turned: bool) -> Vec<[f64; N]> {
    let (start, mut times, mut rounds) = (Instant::now(), vec![[f64::INFINITY; N]; subjects.len()], 0);
    while rounds < ROUNDS || start.elapsed().as_secs_f64() < at_least {
        for (subject, times) in subjects.iter_mut().zip(&mut times) {
            let first = if turned { rounds } else { 0 };
            (0..N).map(|i| (first + i) % N).for_each(|i| times[i] = times[i].min(measured[i].time(subject)));
        }
        rounds += 1;
    }
    times
}

/// Three digits, or all of a number that has more before its point.
fn figure(number: f64) -> String {
    let decimals = (2.0 - number.log10().floor()).max(0.0);
    format!("{number:.*}", decimals as usize)
}

/// The files of a case at so many quarters of its size.
fn subjects((name, _, files): &Case, quarters: usize) -> Vec<Subject> {
    let edition = if name.ends_with("cvc5") { Edition::Cvc5 } else { Edition::Z3 };
    files(quarters).into_iter().map(|file| Subject::new(file, edition)).collect()
}

/// The row of a case among the comparisons.
fn compared(case: &Case, at_least: f64) -> Vec<String> {
    let mut subjects = subjects(case, WHOLE);
    let times = shortest(&mut subjects, [Survey, Script, Parts, Rendering, Copied], at_least, false);
    let [survey, script, parts, rendering, copied] = std::array::from_fn(|i| times.iter().map(|times| times[i]).sum::<f64>());
    let sum = |number: fn(&Subject) -> usize| subjects.iter().map(number).sum::<usize>().to_string();
    let sizes = [sum(|subject| subject.file.len()), sum(|subject| subject.script.len()), sum(|subject| subject.parts)];
    let ratios = [script / rendering, survey / rendering, script / copied].map(figure);
    let first = [case.0.to_string()].into_iter().chain(sizes).chain([figure(script * 1e3)]);
    first.chain(ratios).chain([about(&subjects, 1, parts / script)]).collect()
}

/// A ratio of runs of so many parts to something, with a mark if some of them were measured for all.
fn about(subjects: &[Subject], run_parts: usize, ratio: f64) -> String {
    let sampled = subjects.iter().any(|subject| is_sampled(subject.parts.div_ceil(run_parts)));
    format!("{}{}", if sampled { "~" } else { "" }, figure(ratio))
}

/// The row of a case among the runs: beside script, and beside single parts.
fn run(case: &Case, at_least: f64) -> Vec<String> {
    let mut subjects = subjects(case, WHOLE);
    let [one, some, many, all] = RUN_PARTS.map(Runs);
    let times = shortest(&mut subjects, [Script, Parts, one, some, many, all], at_least, true);
    let sums: [f64; 6] = std::array::from_fn(|i| times.iter().map(|times| times[i]).sum());
    let [script, parts, runs @ ..] = sums;
    let beside = |time: f64| RUN_PARTS.iter().zip(runs).map(|(run_parts, run)| about(&subjects, *run_parts, run / time)).collect::<Vec<_>>();
    let number = subjects.iter().map(|subject| subject.parts).sum::<usize>().to_string();
    let first = [case.0.to_string(), number, figure(script * 1e3), about(&subjects, 1, parts / script)];
    first.into_iter().chain(beside(script)).chain(beside(parts)).collect()
}

/// The row of a case among the growths, in nanoseconds for a byte.
fn grown(case: &Case, at_least: f64) -> Vec<String> {
    let mut subjects: Vec<Subject> = [1, 2, WHOLE].into_iter().flat_map(|quarters| subjects(case, quarters)).collect();
    let times = shortest(&mut subjects, [Script, Rendering, Survey], at_least, false);
    let for_a_byte = |i: usize, at: usize| times[at][i] * 1e9 / subjects[at].bytes() as f64;
    let growths = [(0, 0), (1, 0), (2, 1)].map(|(i, from)| figure(for_a_byte(i, 2) / for_a_byte(i, from)));
    let sizes = subjects.iter().map(|subject| subject.bytes().to_string());
    [case.0.to_string()].into_iter().chain(sizes).chain([0, 1, 2].map(|at| figure(for_a_byte(0, at)))).chain(growths).collect()
}

/// A table with numbers behind the first column.
fn print(titles: &[&str], rows: impl Iterator<Item = Vec<String>>) {
    let mut table = vec![titles.iter().map(|title| title.to_string()).collect()];
    table.extend(rows);
    let widths: Vec<usize> = (0..titles.len()).map(|i| table.iter().map(|row: &Vec<String>| row[i].len()).max().unwrap_or(0)).collect();
    table.insert(1, widths.iter().enumerate().map(|(i, width)| "-".repeat(width - 1) + if i == 0 { "-" } else { ":" }).collect());
    for row in table {
        let cells = row.iter().zip(&widths).enumerate();
        let cells = cells.map(|(i, (cell, width))| if i == 0 { format!("{cell:<width$}") } else { format!("{cell:>width$}") });
        println!("| {} |", cells.collect::<Vec<_>>().join(" | "));
    }
    println!();
}

fn main() {
    let at_least = std::env::args().nth(1).map_or(SECONDS, |seconds| seconds.parse().expect("a number of seconds"));
    let titles = [
        "case", "file bytes", "script bytes", "parts", "script ms", "script/rendering", "survey/rendering", "script/copy", "parts/script",
    ];
    print(&titles, CASES.iter().map(|case| compared(case, at_least)));
    println!("~: of a script with more than {MANY_PARTS} parts {SAMPLED} were measured, spread evenly, and the time scaled up\n");
    let titles = [
        "case", "parts", "script ms", "parts/script", "runs of 1/script", "of 16", "of 256", "of all", "runs of 1/parts", "of 16", "of 256", "of all",
    ];
    print(&titles, CASES.iter().filter(|case| BY_RUNS.contains(&case.0)).map(|case| run(case, at_least)));
    println!("~: likewise, with more than {MANY_PARTS} runs\n");
    let titles = [
        "case", "bytes at 1/4", "at 1/2", "whole", "ns a byte at 1/4", "at 1/2", "whole", "growth", "growth of rendering", "survey from 1/2",
    ];
    print(&titles, CASES.iter().filter(|case| case.1).map(|case| grown(case, at_least)));
}
