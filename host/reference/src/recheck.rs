//! The recheck of a range: tests 1 to 18, 20, 32, 33, 34, then 31.

use crate::answer::{refuse, refuse_at, Answer, DONE};
use crate::bytes::part;
use crate::directory::{self, Directory};
use crate::pages;

/// A recheck's range and the new bytes of the pages that it meets.
#[derive(Clone, Copy, Debug)]
pub struct Range<'a> {
    pub start: u64,
    pub length: u64,
    pub bytes: &'a [u8],
}

/// The tests before any mark is written; the directory and the pages met (first,
/// behind the last) where all pass.
fn test<'a>(
    signature: &'a [u8],
    range: &Range,
    marks: &[u8],
) -> Result<(Directory<'a>, (u64, u64)), Answer> {
    let directory = directory::read(signature, false)?;
    if marks.len() as u64 != directory.code_slots() {
        return refuse(20);
    }
    // Both numbers may be up to 2^64 - 1.
    if u128::from(range.start) + u128::from(range.length) > u128::from(directory.code_limit()) {
        return refuse(32);
    }
    let (first, last) = pages::met(&directory, range.start, range.length);
    if range.bytes.len() as u64 != pages::bytes_of(&directory, first, last) {
        return refuse(33);
    }
    if let Some(page) = marks.iter().position(|&mark| mark > 1) {
        return refuse_at(34, page as u64);
    }
    Ok((directory, (first, last)))
}

/// The recheck. It writes the marks of the pages met, then answers from all marks.
pub fn recheck(signature: &[u8], range: &Range, marks: &mut [u8]) -> Answer {
    let (directory, (first, last)) = match test(signature, range, marks) {
        Ok(passed) => passed,
        Err(refusal) => return refusal,
    };
    let lent_from = pages::bounds(&directory, first).0;
    for i in first..last {
        let (start, end) = pages::bounds(&directory, i);
        let page = part(range.bytes, start - lent_from, end - start);
        marks[i as usize] = pages::mark(&directory, i, page);
    }
    match pages::lowest_differing(marks) {
        Some(place) => Answer { number: 31, place },
        None => DONE,
    }
}
