//! Pages of an image: P, their number, their bounds, and those that a range meets.

use crate::directory::Directory;

/// P: 2 to the pageSize field, or the whole code limit where that field is 0.
pub fn page_size(page_shift: u64, code_limit: u64) -> u64 {
    if page_shift == 0 {
        code_limit
    } else {
        1 << page_shift
    }
}

/// Code limit / P rounded up; 0 for code limit 0, where P may be 0 too.
pub fn page_count(page_shift: u64, code_limit: u64) -> u64 {
    if code_limit == 0 {
        return 0;
    }
    code_limit.div_ceil(page_size(page_shift, code_limit))
}

/// Start and end of page i; the last page is short.
pub fn bounds(directory: &Directory, i: u64) -> (u64, u64) {
    let size = directory.page_size();
    (size * i, (size * (i + 1)).min(directory.code_limit()))
}

/// The first page that a range meets and the one behind the last. The range lies
/// below the code limit. An empty range meets none, wherever it starts.
pub fn met(directory: &Directory, start: u64, length: u64) -> (u64, u64) {
    if length == 0 {
        return (0, 0);
    }
    let size = directory.page_size();
    (start / size, (start + length - 1) / size + 1)
}

/// Bytes from the start of page `first` to the end of the page before `last`.
pub fn bytes_of(directory: &Directory, first: u64, last: u64) -> u64 {
    if first == last {
        return 0;
    }
    bounds(directory, last - 1).1 - bounds(directory, first).0
}

/// The mark of page i with these bytes: 0 agrees with its slot, 1 differs.
pub fn mark(directory: &Directory, i: u64, page: &[u8]) -> u8 {
    u8::from(directory.digest(page) != directory.code_slot(i))
}

/// The lowest page marked 1.
pub fn lowest_differing(marks: &[u8]) -> Option<u64> {
    marks.iter().position(|&mark| mark == 1).map(|page| page as u64)
}
