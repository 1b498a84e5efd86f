//! Pages and marks.

use std::ops::Range;

use super::directory::Directory;
use crate::plain::MOST;

/// The pages that a range below the code limit meets.
pub fn met(directory: &Directory, start: usize, end: usize) -> Range<usize> {
    if start == end {
        return 0..0;
    }
    start / directory.page_size..(end - 1) / directory.page_size + 1
}

/// The bytes of these pages.
pub fn bytes_of(directory: &Directory, pages: &Range<usize>) -> usize {
    if pages.is_empty() {
        return 0;
    }
    let end = (pages.end * directory.page_size).min(directory.code_limit);
    end - pages.start * directory.page_size
}

/// Marks the pages from `first` on whose bytes these are.
pub fn mark(directory: &Directory, first: usize, bytes: &[u8], marks: &mut [u8]) {
    if bytes.is_empty() {
        return;
    }
    let pages = bytes.chunks(directory.page_size).zip(directory.code_slots_from(first));
    let mut buffer = [0; MOST];
    for ((page, slot), mark) in pages.zip(marks) {
        *mark = u8::from(directory.kind.digest(page, &mut buffer) != slot);
    }
}

/// The lowest page with such a mark. A function of its own has its loop where the
/// alignment of functions puts it; across two cache lines the loop takes twice as long.
#[inline(never)]
fn lowest(marks: &[u8], is_such: impl Fn(u8) -> bool) -> Option<usize> {
    marks.iter().position(|&mark| is_such(mark))
}

pub fn lowest_differing(marks: &[u8]) -> Option<usize> {
    lowest(marks, |mark| mark == 1)
}

/// The lowest page whose mark is neither 0 nor 1.
pub fn lowest_unmarked(marks: &[u8]) -> Option<usize> {
    lowest(marks, |mark| mark > 1)
}
