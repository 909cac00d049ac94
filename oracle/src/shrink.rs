//! From a file that shows something to a small one that still does.
use crate::task::{trailer, TRAILER};
use crate::words::sealed;
use std::ops::Range;

/// Pieces of up to so many bytes are taken out at every position and in every length.
const FINE: usize = 64;

/// The end of what can be taken out: the trailer stays if it is right.
fn end(file: &[u8]) -> usize { if trailer(file).is_ok() { file.len() - TRAILER } else { file.len() } }

/// The file without some bytes in front of its end; the offsets move along.
fn without(file: &[u8], span: Range<usize>) -> Vec<u8> {
    let kept = [&file[..span.start], &file[span.end..end(file)]].concat();
    let moved = |offset: usize| offset - (offset.clamp(span.start, span.end) - span.start);
    trailer(file).map_or(kept.clone(), |offsets| sealed(&kept, offsets.map(moved)))
}

/// The bytes of a file, as two digits each.
pub fn hex(file: &[u8]) -> String { file.iter().map(|byte| format!("{byte:02x}")).collect() }

/// Takes out pieces, the whole at first and single bytes at last, as long as what is left still shows it.
pub fn smallest(file: &[u8], shows: impl Fn(&[u8]) -> bool) -> Vec<u8> {
    let (mut file, mut size) = (file.to_vec(), file.len());
    while size > 0 {
        let mut at = 0;
        while at + size <= end(&file) {
            let less = without(&file, at..at + size);
            if shows(&less) { file = less } else { at += if size > FINE { size / 2 } else { 1 } }
        }
        size = if size > FINE { size / 2 } else { size - 1 };
    }
    file
}
