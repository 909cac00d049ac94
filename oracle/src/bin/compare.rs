//! Compares the archive with the rendering of this package, call by call, on files at every limit and on files by chance.
//!
//!     oracle/run [FILES [SEED]]
//!
//! For each file, in both editions: survey's answer; every part in a buffer of its length, in one a byte shorter, in none and in a longer one; two
//! parts that there are not; the script in the same four buffers; and runs of parts by chance, of all kinds of `oracle::runs`, some of them also part by
//! part. For a refused file every call gives the refusal. No byte and no place of a table may change but those of what was asked for and has room. It
//! prints a table of the files and one of the runs, and ends with exit status 1 at the first difference, with the smallest file that it finds for it.
use jiggerreef::{part, run, script, survey, Edition, Refusal, Sizes};
use oracle::chance::{asked, summed, Chance};
use oracle::check::{checked, sets};
use oracle::faults::{any_kind, Case, KINDS};
use oracle::limits::limits;
use oracle::runs::{any_run, Tried};
use oracle::shrink::{hex, smallest};
use oracle::strings::strings;
use oracle::task::{decoded, Answer, NOTED, REFUSALS};
use oracle::text::{Rendering, Run};
use std::{collections::HashMap, process::ExitCode};

const FILES: usize = 200_000;

/// A byte that no script has, and a length that no part has.
const FILL: u8 = 0xa5;
const UNSET: u32 = 0xa5a5_a5a5;

/// What a long buffer has behind the text, and a buffer for a call that is refused.
const ROOM: usize = 40;

/// Of a script with more parts every part is tried if it takes less than so many bytes of file and script in all, else about SAMPLED parts.
const MANY_PARTS: usize = 400;
const FEW_BYTES: usize = 40_000_000;
const SAMPLED: usize = 12;

/// So many runs are tried of an accepted file and of a refused one, and those of up to SINGLES parts also part by part.
const RUNS: usize = 12;
const REFUSED_RUNS: usize = 2;
const SINGLES: usize = 6;

enum Call { Part(usize), Script }

impl Call {
    fn answer(&self, file: &[u8], edition: Edition, buf: &mut [u8]) -> Result<usize, Refusal> {
        match self {
            Call::Part(i) => part(file, edition, *i, buf),
            Call::Script => script(file, edition, buf),
        }
    }
}

/// The editions, in the order of the renderings of a file.
const EDITIONS: [Edition; 2] = [Edition::Z3, Edition::Cvc5];

/// What was compared: parts, calls, the scripts of which some parts only, and runs, which the seed and the file decide on.
#[derive(Default)]
struct Compared { seed: u64, parts: usize, calls: usize, sampled: usize, runs: Tried }

/// Nothing, or what differs.
type Same = Result<(), String>;

fn same<T: PartialEq + std::fmt::Debug>(what: &str, rendering: T, archive: T) -> Same {
    if rendering == archive { Ok(()) } else { Err(format!("{what}: {rendering:?} by the rendering, {archive:?} by the archive")) }
}

/// Whether a buffer or table that was filled has this at its start and is as it was behind it.
fn holds<T: PartialEq>(lent: &[T], written: &[T], fill: T) -> bool {
    lent.starts_with(written) && lent[written.len()..].iter().all(|item| *item == fill)
}

/// What a run is lent, filled: more than it is told of, so that what it changes behind that shows.
fn lent(run: &Run) -> (Vec<u8>, Vec<u32>) { (vec![FILL; run.room + ROOM], vec![UNSET; run.places + ROOM]) }

impl Compared {
    /// One call with a buffer of this length: its answer and every byte of the buffer.
    fn call(&mut self, file: &[u8], edition: Edition, call: &Call, length: usize, expected: Answer<&str>) -> Same {
        self.calls += 1;
        let mut buf = vec![FILL; length];
        let answer = call.answer(file, edition, &mut buf).map_err(Refusal::number);
        let text = expected.unwrap_or("").as_bytes();
        if answer == expected.map(str::len) && holds(&buf, text, FILL) {
            return Ok(());
        }
        let name = match call { Call::Part(i) => format!("{edition:?}, part {i}"), Call::Script => format!("{edition:?}, script") };
        same(&format!("{name} with {length} bytes"), expected.map(str::len), answer)?;
        Err(format!("{name} with {length} bytes: another text, or a byte changed that is none of it"))
    }

    /// A text that is to be written: with room for it, with room and more, and with too little.
    fn text(&mut self, file: &[u8], edition: Edition, call: Call, text: &str) -> Same {
        self.call(file, edition, &call, text.len(), Ok(text))?;
        self.call(file, edition, &call, text.len() + ROOM, Ok(text))?;
        self.call(file, edition, &call, text.len() - 1, Err(9))?;
        self.call(file, edition, &call, 0, Err(9))
    }

    fn accepted(&mut self, file: &[u8], edition: Edition, rendering: &Rendering) -> Same {
        let (parts, bytes) = (rendering.ends.len(), rendering.script.len());
        let sizes = Sizes { parts, assertions: rendering.assertions, bytes, longest: rendering.longest() };
        same("survey", Ok(sizes), survey(file, edition).map_err(Refusal::number))?;
        let all = parts <= MANY_PARTS || parts * (file.len() + bytes) < FEW_BYTES;
        let step = if all { 1 } else { parts / SAMPLED };
        for i in (0..parts).filter(|i| i % step == 0 || i + 1 == parts) {
            self.text(file, edition, Call::Part(i), rendering.part(i))?;
            self.parts += 1;
        }
        self.sampled += !all as usize;
        self.all_refused(file, edition, &[Call::Part(parts), Call::Part(usize::MAX)], 8)?;
        self.text(file, edition, Call::Script, &rendering.script)?;
        self.runs(file, edition, Ok(rendering))
    }

    fn all_refused(&mut self, file: &[u8], edition: Edition, calls: &[Call], refusal: u8) -> Same {
        calls.iter().try_for_each(|call| [0, ROOM].iter().try_for_each(|length| self.call(file, edition, call, *length, Err(refusal))))
    }

    /// Numbers by chance that are the same for the same file and edition, so that a difference shows again.
    fn chance(&self, file: &[u8], edition: Edition) -> Chance {
        let bytes = file.iter().copied().chain([edition as u8]);
        Chance::new(summed(self.seed, bytes))
    }

    /// One run: its answer, every byte of the buffer and every place of the table.
    fn run(&mut self, file: &[u8], edition: Edition, asked: &Run, expected: Answer<(&str, Vec<u32>)>) -> Same {
        self.calls += 1;
        let (mut buf, mut table) = lent(asked);
        let answer = run(file, edition, asked.first, asked.count, &mut buf[..asked.room], &mut table[..asked.places]).map_err(Refusal::number);
        let (length, (text, lengths)) = (expected.as_ref().map(|(text, _)| text.len()).map_err(|number| *number), expected.unwrap_or_default());
        same("answer", length, answer)?;
        if !holds(&buf, text.as_bytes(), FILL) {
            return Err("another text, or a byte changed that is none of it".to_string());
        }
        if !holds(&table, &lengths, UNSET) {
            return Err("other lengths, or a place changed that is none of them".to_string());
        }
        if answer.is_ok() && (1..=SINGLES).contains(&asked.count) { self.singles(file, edition, asked, (buf, table)) } else { Ok(()) }
    }

    /// The parts of a run one after another, each into the buffer behind the last written byte with its length put down: they leave what the run left.
    fn singles(&mut self, file: &[u8], edition: Edition, asked: &Run, left: (Vec<u8>, Vec<u32>)) -> Same {
        let ((mut buf, mut table), mut at) = (lent(asked), 0);
        for (i, place) in table[..asked.count].iter_mut().enumerate() {
            let length = part(file, edition, asked.first + i, &mut buf[at..asked.room]).map_err(|refusal| format!("part by part {refusal}"))?;
            *place = length as u32;
            at += length;
        }
        self.calls += asked.count;
        self.runs.singles += 1;
        if (buf, table) == left { Ok(()) } else { Err("the parts one after another leave something else".to_string()) }
    }

    /// Runs by chance of a file that is accepted or refused.
    fn runs(&mut self, file: &[u8], edition: Edition, answer: Answer<&Rendering>) -> Same {
        let mut chance = self.chance(file, edition);
        (0..if answer.is_ok() { RUNS } else { REFUSED_RUNS }).try_for_each(|_| {
            let (kind, run) = any_run(&mut chance, answer.ok());
            self.runs.add(kind, &run, answer.ok());
            let tried = self.run(file, edition, &run, answer.and_then(|rendering| rendering.run(&run)));
            tried.map_err(|difference| format!("{edition:?}, {run:?}: {difference}"))
        })
    }

    fn file(&mut self, file: &[u8], answer: &Answer<[Rendering; 2]>) -> Same {
        EDITIONS.into_iter().enumerate().try_for_each(|(i, edition)| {
            self.calls += 1;
            match answer {
                Ok(renderings) => self.accepted(file, edition, &renderings[i]),
                Err(refusal) => {
                    same("survey", Err(*refusal), survey(file, edition).map_err(Refusal::number))?;
                    self.all_refused(file, edition, &[Call::Part(0), Call::Part(usize::MAX), Call::Script], *refusal)?;
                    self.runs(file, edition, Err(*refusal))
                }
            }
        })
    }
}

/// For each answer to a file the number of those that got it: accepted in front, then the refusals in the order of judging.
type Counts = [usize; 1 + REFUSALS.len()];

/// The files by kind and by answer; of all those with a quotation mark in a string, and those with a set function in the script; and those with two
/// faults that are noted, by the refusals in the order of place.
#[derive(Default)]
struct Table { rows: Vec<(String, Counts)>, with_quotes: Counts, with_sets: Counts, pairs: HashMap<[u8; 2], usize>, compared: Compared }

impl Table {
    fn add(&mut self, kind: &str, case: &Case) -> Same {
        let answer = checked(&case.file);
        let number = answer.as_ref().err().copied().unwrap_or(0);
        if let Some(due) = case.due.filter(|due| *due != number) {
            return Err(format!("made for {due}, the rendering answers {number} (0: accepted)"));
        }
        let at = self.rows.iter().position(|row| row.0 == kind).unwrap_or_else(|| {
            self.rows.push((kind.to_string(), Counts::default()));
            self.rows.len() - 1
        });
        let column = REFUSALS.iter().position(|refusal| *refusal == number).map_or(0, |place| 1 + place);
        self.rows[at].1[column] += 1;
        if let Ok(task) = decoded(&case.file) {
            self.with_quotes[column] += strings(&task).iter().any(|string| string.contains('"')) as usize;
            self.with_sets[column] += (sets(&task) > 0) as usize;
        }
        case.pair.iter().for_each(|pair| *self.pairs.entry(*pair).or_default() += 1);
        self.compared.file(&case.file, &answer)
    }

    fn print(&self) {
        let columns = |numbers: &[usize]| numbers.iter().map(|number| format!("{number:>9}")).collect::<String>();
        let titles = |refusals: &[u8]| columns(&refusals.iter().map(|refusal| *refusal as usize).collect::<Vec<_>>());
        let print = |kind: &str, counts: &Counts| println!("{kind:<17}{:>9}{}", counts.iter().sum::<usize>(), columns(counts));
        println!("{:<17}{:>9}{:>9}{}", "kind", "files", "accepted", titles(&REFUSALS));
        self.rows.iter().for_each(|(kind, counts)| print(kind, counts));
        print("total", &std::array::from_fn(|number| self.rows.iter().map(|(_, counts)| counts[number]).sum()));
        print("quotes in strings", &self.with_quotes);
        print("set functions", &self.with_sets);
        println!("two faults, the row's in front of the column's");
        println!("{:<17}{}", "", titles(NOTED));
        for front in NOTED {
            let counts: Vec<usize> = NOTED.iter().map(|behind| self.pairs.get(&[*front, *behind]).copied().unwrap_or(0)).collect();
            println!("{front:<17}{}", columns(&counts));
        }
        self.compared.runs.print();
        let Compared { parts, calls, sampled, .. } = self.compared;
        println!("{parts} parts in {calls} calls");
        println!("of {sampled} scripts with more than {MANY_PARTS} parts: the first part, the last and every n-th, about {SAMPLED} in all");
    }
}

/// Says what differs, and the smallest file found for it.
fn report(kind: &str, case: &Case, difference: &str, seed: u64) -> ExitCode {
    let differs = |file: &[u8]| Compared { seed, ..Compared::default() }.file(file, &checked(file)).err();
    let small = smallest(&case.file, |file| differs(file).is_some());
    println!("{kind}: {difference}");
    println!("smallest file, {} bytes: {}", small.len(), hex(&small));
    differs(&small).iter().for_each(|difference| println!("there, {difference}"));
    ExitCode::FAILURE
}

fn main() -> ExitCode {
    let (files, seed) = asked(FILES);
    let (mut chance, mut table) = (Chance::new(seed), Table { compared: Compared { seed, ..Compared::default() }, ..Table::default() });
    KINDS.iter().for_each(|kind| table.rows.push((kind.0.to_string(), Counts::default())));
    let limits = limits();
    let by_chance = files.saturating_sub(limits.len());
    for (name, case) in &limits {
        if let Err(difference) = table.add("limit", case) {
            return report(name, case, &difference, seed);
        }
    }
    for _ in 0..by_chance {
        let (kind, _, make) = any_kind(&mut chance);
        let case = make.case(&mut chance);
        if let Err(difference) = table.add(kind, &case) {
            return report(kind, &case, &difference, seed);
        }
    }
    table.print();
    println!("{} files, 0 differences", limits.len() + by_chance);
    ExitCode::SUCCESS
}
