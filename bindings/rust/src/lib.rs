//! A checking task of Flux to an SMT-LIB 2.6 script for a Horn solver, or to one numbered refusal.
//!
//! The four calls `survey`, `part`, `script` and `run` take any bytes, any numbers and a buffer of any length, and there is nothing to test before a
//! call. A refusal is its number and changes no byte of the buffer; a success is its values, and the bytes behind the written text are unchanged. A
//! call needs up to 700 KB of stack, which Rust's threads have, and no heap.
//!
//! ```
//! use jiggerreef::Edition;
//!
//! let refused = jiggerreef::script(b"no task", Edition::Z3, &mut [0; 64]);
//! assert_eq!(refused.unwrap_err().number(), 1);
//! ```
//!
//! `run_to_vec` and `parts` are over these: a run in a `Vec`, and the parts of a script one by one, written by runs.
use std::{error::Error, fmt, iter::FusedIterator};

/// Whose names the set functions have in a script: `union` with Z3, `set.union` with cvc5. All else is the same text, and no refusal depends on it.
#[derive(Debug, Clone, Copy, PartialEq, Eq, Default)]
pub enum Edition {
    #[default]
    Z3 = 0,
    Cvc5 = 1,
}

/// The numbers of a script: parts, assertions, bytes, and the bytes of its longest part.
#[derive(Debug, Clone, Copy, PartialEq, Eq)]
pub struct Sizes {
    pub parts: usize,
    pub assertions: usize,
    pub bytes: usize,
    pub longest: usize,
}

/// The number of a refusal: 1 to 15. docs/REFUSALS.md says what each means.
#[derive(Debug, Clone, Copy, PartialEq, Eq)]
pub struct Refusal(u8);

impl Refusal {
    pub fn number(self) -> u8 {
        self.0
    }
}

impl fmt::Display for Refusal {
    fn fmt(&self, f: &mut fmt::Formatter<'_>) -> fmt::Result {
        write!(f, "refused {}", self.0)
    }
}

impl Error for Refusal {}

mod archive {
    // Slices are a pointer and a length, and come first. A call that answers 0 has stored its values, any other has stored nothing.
    extern "C" {
        pub fn jiggerreef_survey(file: *const u8, file_len: usize, edition: u8, sizes: *mut [usize; 4]) -> u8;
        pub fn jiggerreef_part(
            file: *const u8, file_len: usize, buf: *mut u8, buf_len: usize, edition: u8, index: usize, length: *mut usize,
        ) -> u8;
        pub fn jiggerreef_script(file: *const u8, file_len: usize, buf: *mut u8, buf_len: usize, edition: u8, length: *mut usize) -> u8;
        pub fn jiggerreef_run(
            file: *const u8, file_len: usize, buf: *mut u8, buf_len: usize, lengths: *mut u32, lengths_len: usize, edition: u8, first: usize,
            count: usize, length: *mut usize,
        ) -> u8;
    }
}

/// The values of an answer: those that were stored where its number is 0.
fn answer<T>(number: u8, stored: T) -> Result<T, Refusal> {
    if number == 0 { Ok(stored) } else { Err(Refusal(number)) }
}

/// The numbers of the task's script, or one of survey's refusals: 1 to 7 or 10 to 15.
pub fn survey(file: &[u8], edition: Edition) -> Result<Sizes, Refusal> {
    let mut sizes = [0; 4];
    // SAFETY: the pointers are those of a slice and of an array, which share no byte.
    let number = unsafe { archive::jiggerreef_survey(file.as_ptr(), file.len(), edition as u8, &mut sizes) };
    let [parts, assertions, bytes, longest] = sizes;
    answer(number, Sizes { parts, assertions, bytes, longest })
}

/// Writes a part of the task's script to the buffer's start and gives its length; or a refusal: survey's, then 8 if there is no such part, then 9
/// if it is longer than the buffer.
pub fn part(file: &[u8], edition: Edition, index: usize, buf: &mut [u8]) -> Result<usize, Refusal> {
    let mut length = 0;
    // SAFETY: the pointers are those of two slices and of a local; the slice lent for writing shares no byte with the others.
    let number =
        unsafe { archive::jiggerreef_part(file.as_ptr(), file.len(), buf.as_mut_ptr(), buf.len(), edition as u8, index, &mut length) };
    answer(number, length)
}

/// Writes the task's script to the buffer's start and gives its length; or a refusal: survey's, then 9 if it is longer than the buffer.
pub fn script(file: &[u8], edition: Edition, buf: &mut [u8]) -> Result<usize, Refusal> {
    let mut length = 0;
    // SAFETY: as in `part`.
    let number =
        unsafe { archive::jiggerreef_script(file.as_ptr(), file.len(), buf.as_mut_ptr(), buf.len(), edition as u8, &mut length) };
    answer(number, length)
}

/// Writes parts `first` to `first + count - 1` of the task's script, joined, to the buffer's start and the length of each to the table's first
/// places, and gives the joined length; or a refusal: survey's, then 8 if `first + count`, whatever their size, is more than there are parts, then 9
/// if the text is longer than the buffer or the table has fewer than `count` places. Further bytes and places are unchanged, and all of them at a
/// refusal.
///
/// The call costs the file and what is written; `count` calls of `part` cost the file `count` times.
pub fn run(file: &[u8], edition: Edition, first: usize, count: usize, buf: &mut [u8], lengths: &mut [u32]) -> Result<usize, Refusal> {
    let mut length = 0;
    // SAFETY: the pointers are those of three slices and of a local; the slices lent for writing share no byte with the others.
    let number = unsafe {
        archive::jiggerreef_run(
            file.as_ptr(), file.len(), buf.as_mut_ptr(), buf.len(), lengths.as_mut_ptr(), lengths.len(), edition as u8, first, count, &mut length,
        )
    };
    answer(number, length)
}

/// Parts of a script one behind the other: their text, and the length of each.
#[derive(Debug, Clone, PartialEq, Eq)]
pub struct Run {
    pub text: Vec<u8>,
    pub lengths: Vec<u32>,
}

impl Run {
    /// The parts, one by one.
    pub fn parts(&self) -> impl Iterator<Item = &[u8]> {
        let mut rest = &self.text[..];
        self.lengths.iter().map(move |length| {
            let (part, behind) = rest.split_at(*length as usize);
            rest = behind;
            part
        })
    }
}

/// `run` into a `Vec`: the parts from `first` on, `count` of them, and their lengths; or survey's refusal, then 8. It asks survey how much room to
/// lend, so there is no 9.
pub fn run_to_vec(file: &[u8], edition: Edition, first: usize, count: usize) -> Result<Run, Refusal> {
    let sizes = survey(file, edition)?;
    let mut text = vec![0; sizes.room(count)];
    // A run of more parts than there are gets 8, before the table is looked at
    let mut lengths = vec![0; count.min(sizes.parts)];
    let length = run(file, edition, first, count, &mut text, &mut lengths)?;
    text.truncate(length);
    Ok(Run { text, lengths })
}

impl Sizes {
    /// Bytes that are enough for any run of so many parts: the script is, and so is the longest part as often.
    fn room(&self, count: usize) -> usize {
        self.longest.saturating_mul(count).min(self.bytes)
    }
}

/// The parts of a script, one by one. Made by `parts`.
#[derive(Debug, Clone)]
pub struct Parts<'f> {
    file: &'f [u8],
    edition: Edition,
    parts: usize,
    /// How many were given so far.
    given: usize,
    /// What is lent to each run; the table has as many places as a run has parts.
    text: Vec<u8>,
    lengths: Vec<u32>,
    /// Where the next part begins in the text.
    at: usize,
}

/// The parts of the task's script in order, written by runs of `at_a_time` parts (of one, if it is 0); or survey's refusal. Joined they are the
/// script.
///
/// Each run costs the file and what it writes, so with P parts the whole costs the file P / `at_a_time` times: a few thousand parts at a time are a fair
/// choice. The iterator holds the text of one run, never more than the script.
///
/// A driver that streams a script to a solver:
///
/// ```
/// use jiggerreef::Edition;
/// use std::io::Write;
///
/// # fn main() -> Result<(), Box<dyn std::error::Error>> {
/// let task = std::fs::read("../../crates/hornscript/stdin")?;
/// let mut solver = Vec::new(); // or the standard input of a solver
/// for part in jiggerreef::parts(&task, Edition::Z3, 4096)? {
///     solver.write_all(&part)?;
/// }
/// assert!(solver.ends_with(b"\n(check-sat)\n"));
/// # Ok(())
/// # }
/// ```
pub fn parts(file: &[u8], edition: Edition, at_a_time: usize) -> Result<Parts<'_>, Refusal> {
    let sizes = survey(file, edition)?;
    let count = at_a_time.clamp(1, sizes.parts);
    Ok(Parts { file, edition, parts: sizes.parts, given: 0, text: vec![0; sizes.room(count)], lengths: vec![0; count], at: 0 })
}

impl Iterator for Parts<'_> {
    type Item = Vec<u8>;

    fn next(&mut self) -> Option<Vec<u8>> {
        let (left, place) = (self.parts - self.given, self.given % self.lengths.len());
        if left == 0 {
            return None;
        }
        if place == 0 {
            let count = left.min(self.lengths.len());
            run(self.file, self.edition, self.given, count, &mut self.text, &mut self.lengths).expect("there is room, as survey told");
            self.at = 0;
        }
        let start = self.at;
        self.at += self.lengths[place] as usize;
        self.given += 1;
        Some(self.text[start..self.at].to_vec())
    }

    fn size_hint(&self) -> (usize, Option<usize>) {
        let left = self.parts - self.given;
        (left, Some(left))
    }
}

impl ExactSizeIterator for Parts<'_> {}

impl FusedIterator for Parts<'_> {}
