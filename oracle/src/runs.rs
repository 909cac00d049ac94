//! Runs of parts by chance (W-204), and what was tried of them.
use crate::chance::Chance;
use crate::task::LONGEST_FILE;
use crate::text::{Rendering, Run};

/// A kind of runs: its name, its share among all, and the first part and the number of parts where the script has so many.
type Kind = (&'static str, usize, fn(&mut Chance, usize) -> (usize, usize));

const KINDS: [Kind; 16] = [
    ("zero-at-0", 1, |_, _| (0, 0)),
    ("zero-inside", 1, |chance, parts| (1 + chance.below(parts - 1), 0)),
    ("zero-at-end", 1, |_, parts| (parts, 0)),
    ("zero-behind", 1, |_, parts| (parts + 1, 0)),
    ("one", 2, |chance, parts| (chance.below(parts), 1)),
    ("some", 7, some),
    ("to-the-end", 2, |chance, parts| up_to(parts, chance.below(parts))),
    ("whole", 1, |_, parts| (0, parts)),
    ("one-past", 2, |chance, parts| up_to(parts + 1, chance.below(parts + 1))),
    ("further-past", 1, |chance, parts| up_to(parts + 2 + chance.below(FURTHER), chance.below(parts + 1))),
    ("behind", 1, |chance, parts| (parts + 1 + chance.below(FURTHER), chance.below(FURTHER))),
    ("largest-first", 1, |chance, parts| (usize::MAX, chance.below(parts + 2))),
    ("largest-count", 1, |chance, parts| (chance.below(parts + 2), usize::MAX)),
    ("largest-both", 1, |_, _| (usize::MAX, usize::MAX)),
    ("sum-wraps", 1, sum_wraps),
    ("4-bytes-wrap", 1, four_bytes_wrap),
];

/// How far a run goes past the last part, and what is given behind what is due.
const FURTHER: usize = 100;
const TAIL: usize = 5;

/// What is given, by what is due: nothing, one less, just that, or more; and how often each is given.
const ROOMS: [&str; 4] = ["none", "short", "exact", "tail"];
const GIVEN: [usize; 8] = [0, 1, 1, 2, 2, 2, 3, 3];

/// The rules of refusals in the order of judging: survey's, 8, and 9 by the buffer and by the table.
const RULES: [&str; 4] = ["survey", "8", "buffer", "table"];

fn up_to(behind: usize, first: usize) -> (usize, usize) { (first, behind - first) }

fn some(chance: &mut Chance, parts: usize) -> (usize, usize) {
    let first = chance.below(parts);
    (first, 1 + chance.below(parts - first))
}

/// The sum is 2^64 and a number up to that of parts; the first part is among the last numbers, any, or soon behind the last part.
fn sum_wraps(chance: &mut Chance, parts: usize) -> (usize, usize) {
    let further = chance.below(FURTHER);
    let first = [usize::MAX - further, parts + 1 + chance.below(usize::MAX), parts + 1 + further][chance.below(3)];
    (first, chance.below(parts + 1).wrapping_sub(first))
}

/// A run that there is, but for 2^32 in the first part or in the number.
fn four_bytes_wrap(chance: &mut Chance, parts: usize) -> (usize, usize) {
    let (first, count) = some(chance, parts);
    if chance.below(2) == 0 { (first + (1 << 32), count) } else { (first, count + (1 << 32)) }
}

fn any_kind(chance: &mut Chance) -> usize {
    let mut left = chance.below(KINDS.iter().map(|kind| kind.1).sum());
    KINDS.iter().position(|kind| left.checked_sub(kind.1).map(|rest| left = rest).is_none()).expect("a share")
}

/// So much room for what is due, by chance.
fn given(chance: &mut Chance, due: usize) -> usize { [0, due.saturating_sub(1), due, due + TAIL][GIVEN[chance.below(GIVEN.len())]] }

/// Which of the rooms it is.
fn room_of(given: usize, due: usize) -> usize {
    match given.checked_sub(due) {
        Some(0) => 2,
        Some(_) => 3,
        None if given + 1 == due => 1,
        None => 0,
    }
}

/// The bytes that a run is due, as far as there are parts, and the places, as far as there could be. Of a refused file: as if its parts had a byte each.
fn due(run: &Run, rendering: Option<&Rendering>) -> [usize; 2] {
    let parts = parts(rendering);
    let start = |part: usize| rendering.map_or(part.min(parts), |rendering| rendering.start(part.min(parts)));
    [start(run.first.saturating_add(run.count)) - start(run.first), run.count.min(parts + 2 * FURTHER)]
}

/// The number of parts; of a refused file the least that there is.
fn parts(rendering: Option<&Rendering>) -> usize { rendering.map_or(3, |rendering| rendering.ends.len()) }

/// A run of a script, or of a file that is refused, and its kind.
pub fn any_run(chance: &mut Chance, rendering: Option<&Rendering>) -> (usize, Run) {
    let kind = any_kind(chance);
    let (first, count) = KINDS[kind].2(chance, parts(rendering));
    let run = Run { first, count, room: 0, places: 0 };
    let [room, places] = due(&run, rendering).map(|due| given(chance, due));
    (kind, Run { room, places, ..run })
}

/// The rules that a run breaks. With a refused file those that it would break with every script: no file has more parts than bytes and 3, and no part is
/// empty.
fn broken(run: &Run, rendering: Option<&Rendering>) -> [bool; 4] {
    let (parts, bytes) = rendering.map_or((LONGEST_FILE + 3, run.count.min(1)), |_| (parts(rendering), due(run, rendering)[0]));
    [rendering.is_none(), run.passes(parts), run.room < bytes, run.places < run.count]
}

/// What was tried: the runs by kind and by answer (written, survey's, 8 or 9); those of scripts that do not pass the last part, by the room in buffer
/// and table; those that break rules, by the first of them, which decides, and each other, or by it alone on the diagonal; and how many were also made
/// part by part.
#[derive(Default)]
pub struct Tried { kinds: [[usize; 4]; KINDS.len()], rooms: [[usize; 4]; 4], pub rules: [[usize; 4]; 4], pub singles: usize }

impl Tried {
    /// A run of a script, or of a file that is refused.
    pub fn add(&mut self, kind: usize, run: &Run, rendering: Option<&Rendering>) {
        let broken = broken(run, rendering);
        let first = broken.iter().position(|is_broken| *is_broken);
        self.kinds[kind][first.map_or(0, |rule| 1 + rule.min(2))] += 1;
        if let Some(first) = first {
            let behind = (first + 1..4).filter(|rule| broken[*rule]).collect::<Vec<_>>();
            self.rules[first][first] += behind.is_empty() as usize;
            behind.into_iter().for_each(|rule| self.rules[first][rule] += 1);
        }
        if !broken[0] && !broken[1] {
            let [bytes, places] = due(run, rendering);
            self.rooms[room_of(run.room, bytes)][room_of(run.places, places)] += 1;
        }
    }

    fn runs(&self) -> usize { self.kinds.iter().flatten().sum() }

    pub fn print(&self) {
        let row = |name: &str, counts: &[usize]| println!("{name:<17}{}", counts.iter().map(|count| format!("{count:>9}")).collect::<String>());
        let titles = |first: &str, titles: &[&str]| println!("{first:<17}{}", titles.iter().map(|title| format!("{title:>9}")).collect::<String>());
        titles("runs", &["runs", "written", "survey's", "8", "9"]);
        KINDS.iter().zip(&self.kinds).for_each(|((name, ..), counts)| row(name, &[&[counts.iter().sum()], &counts[..]].concat()));
        println!("runs that break two rules, of which the row's decides; on the diagonal those that break one alone");
        titles("", &RULES);
        RULES.iter().zip(&self.rules).for_each(|(name, counts)| row(name, counts));
        println!("runs that do not pass the last part, by the buffer in the row and the table in the column");
        titles("", &ROOMS);
        ROOMS.iter().zip(&self.rooms).for_each(|(name, counts)| row(name, counts));
        println!("{} runs, {} of them also part by part", self.runs(), self.singles);
    }
}
