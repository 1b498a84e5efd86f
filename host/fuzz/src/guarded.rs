//! Buffers at the edge of what is mapped: the byte behind the last, or the one before the
//! first, cannot be touched.

use std::ffi::{c_int, c_void};
use std::ops::{Deref, DerefMut};
use std::ptr;
use std::slice;

/// Bytes of a page of memory on x86-64 Linux.
const PAGE: usize = 4_096;

const PROT_NONE: c_int = 0;
const PROT_READ: c_int = 1;
const PROT_WRITE: c_int = 2;
const MAP_PRIVATE: c_int = 2;
const MAP_ANONYMOUS: c_int = 0x20;

extern "C" {
    fn mmap(
        address: *mut c_void,
        length: usize,
        protection: c_int,
        flags: c_int,
        file: c_int,
        offset: i64,
    ) -> *mut c_void;
    fn mprotect(address: *mut c_void, length: usize, protection: c_int) -> c_int;
    fn munmap(address: *mut c_void, length: usize) -> c_int;
}

/// Which end of a buffer meets a page that cannot be touched.
#[derive(Clone, Copy, Debug)]
pub enum Edge {
    First,
    Last,
}

/// A mapping: a guard page, the pages of the buffer, a guard page.
struct Mapping {
    base: *mut c_void,
    inner: usize,
}

impl Mapping {
    fn new(inner: usize) -> Mapping {
        // SAFETY: a new private mapping, which touches nothing that is there.
        let base = unsafe {
            mmap(ptr::null_mut(), inner + 2 * PAGE, PROT_NONE, MAP_PRIVATE | MAP_ANONYMOUS, -1, 0)
        };
        assert!(base as isize != -1, "no memory");
        Mapping { base, inner }
    }

    /// The first byte between the guard pages.
    fn start(&self) -> *mut u8 {
        self.base.cast::<u8>().wrapping_add(PAGE)
    }

    fn protect(&self, protection: c_int) {
        // SAFETY: pages of this mapping, which no borrow covers: this is called while a
        // buffer is made.
        let done = unsafe { mprotect(self.start().cast(), self.inner, protection) };
        assert!(done == 0, "the pages cannot be protected");
    }
}

impl Drop for Mapping {
    fn drop(&mut self) {
        // SAFETY: the whole mapping, whose buffer goes with it.
        unsafe { munmap(self.base, self.inner + 2 * PAGE) };
    }
}

/// A copy of bytes that can be read and not written.
pub struct ReadOnly {
    mapping: Mapping,
    at: *mut u8,
    length: usize,
}

/// A copy of bytes that can be written.
pub struct Writable(ReadOnly);

fn copied(bytes: &[u8], edge: Edge) -> ReadOnly {
    let mapping = Mapping::new(bytes.len().next_multiple_of(PAGE));
    mapping.protect(PROT_READ | PROT_WRITE);
    let before = match edge {
        Edge::First => 0,
        Edge::Last => mapping.inner - bytes.len(),
    };
    let at = mapping.start().wrapping_add(before);
    // SAFETY: the pages between the guards hold the bytes, and are new.
    unsafe { ptr::copy_nonoverlapping(bytes.as_ptr(), at, bytes.len()) };
    ReadOnly { mapping, at, length: bytes.len() }
}

impl ReadOnly {
    pub fn new(bytes: &[u8], edge: Edge) -> ReadOnly {
        let copied = copied(bytes, edge);
        copied.mapping.protect(PROT_READ);
        copied
    }
}

impl Writable {
    pub fn new(bytes: &[u8], edge: Edge) -> Writable {
        Writable(copied(bytes, edge))
    }
}

impl Deref for ReadOnly {
    type Target = [u8];

    fn deref(&self) -> &[u8] {
        // SAFETY: readable for as long as the mapping is held.
        unsafe { slice::from_raw_parts(self.at, self.length) }
    }
}

impl Deref for Writable {
    type Target = [u8];

    fn deref(&self) -> &[u8] {
        &self.0
    }
}

impl DerefMut for Writable {
    fn deref_mut(&mut self) -> &mut [u8] {
        // SAFETY: writable for as long as the mapping is held, and borrowed here alone.
        unsafe { slice::from_raw_parts_mut(self.0.at, self.0.length) }
    }
}

#[cfg(test)]
mod tests {
    use super::*;

    /// The protection of the page that holds an address, as the kernel lists it.
    fn protection(address: usize) -> String {
        let maps = std::fs::read_to_string("/proc/self/maps").unwrap();
        let number = |digits: &str| usize::from_str_radix(digits, 16).unwrap();
        let holds = |line: &&str| {
            let (start, end) = line.split_once(' ').unwrap().0.split_once('-').unwrap();
            (number(start)..number(end)).contains(&address)
        };
        maps.lines().find(holds).unwrap().split(' ').nth(1).unwrap().to_string()
    }

    /// The byte beyond the edge cannot be touched, whatever the length.
    #[test]
    fn guards() {
        for length in [0, 1, PAGE - 1, PAGE, PAGE + 1] {
            let bytes: Vec<u8> = (0..length).map(|i| i as u8).collect();
            let last = ReadOnly::new(&bytes, Edge::Last);
            let first = Writable::new(&bytes, Edge::First);
            assert_eq!((&last[..], &first[..]), (&bytes[..], &bytes[..]));
            assert_eq!(protection(last.as_ptr_range().end as usize), "---p");
            assert_eq!(protection(first.as_ptr() as usize - 1), "---p");
        }
    }

    #[test]
    fn only_marks_can_be_written() {
        let read_only = ReadOnly::new(&[1], Edge::First);
        let mut writable = Writable::new(&[1], Edge::Last);
        writable[0] = 2;
        assert_eq!(protection(read_only.as_ptr() as usize), "r--p");
        assert_eq!(protection(writable.as_ptr() as usize), "rw-p");
    }
}
