//! A file as a part of memory: no byte of it is read before it is touched.

use std::ffi::{c_int, c_void};
use std::fs::File;
use std::io;
use std::ops::Deref;
use std::os::fd::AsRawFd;
use std::ptr::{self, NonNull};
use std::slice;

use crate::fault;

// Linux's numbers.
const PROT_READ: c_int = 1;
const MAP_PRIVATE: c_int = 2;
const MAP_FAILED: usize = usize::MAX;

extern "C" {
    fn mmap(
        address: *mut c_void,
        length: usize,
        protection: c_int,
        flags: c_int,
        file: c_int,
        offset: i64,
    ) -> *mut c_void;
    fn munmap(address: *mut c_void, length: usize) -> c_int;
}

/// The first bytes of a file. Where the file is cut short meanwhile, the process ends with a
/// sentence.
pub struct Map {
    start: NonNull<u8>,
    length: usize,
}

impl Map {
    /// `length` is neither 0 nor above the file's.
    pub fn new(file: &File, length: usize) -> io::Result<Map> {
        fault::expect();
        // SAFETY: the system chooses an address that nothing else uses.
        let start =
            unsafe { mmap(ptr::null_mut(), length, PROT_READ, MAP_PRIVATE, file.as_raw_fd(), 0) };
        if start as usize == MAP_FAILED {
            return Err(io::Error::last_os_error());
        }
        let start = NonNull::new(start.cast()).ok_or(io::ErrorKind::OutOfMemory)?;
        Ok(Map { start, length })
    }
}

impl Deref for Map {
    type Target = [u8];

    fn deref(&self) -> &[u8] {
        // SAFETY: the mapping has this many bytes and lives as long as `self`. The slice is
        // only handed on to the library, to which any bytes may be lent.
        unsafe { slice::from_raw_parts(self.start.as_ptr(), self.length) }
    }
}

impl Drop for Map {
    fn drop(&mut self) {
        // SAFETY: the mapping is this process's own, and nothing borrows it any more.
        unsafe { munmap(self.start.as_ptr().cast(), self.length) };
    }
}
