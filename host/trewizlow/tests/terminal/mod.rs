//! A pseudo-terminal: what a program sees as a terminal, and the side that reads it.

use std::ffi::{c_char, c_int, CStr};
use std::fs::{File, OpenOptions};
use std::io::Read;
use std::os::fd::AsRawFd;
use std::os::unix::fs::OpenOptionsExt;

const O_NOCTTY: c_int = 0o400;

extern "C" {
    fn unlockpt(file: c_int) -> c_int;
    fn ptsname_r(file: c_int, name: *mut c_char, length: usize) -> c_int;
}

/// The reading side, and the side that is a terminal.
pub fn pair() -> (File, File) {
    let open = |path: &str| {
        OpenOptions::new().read(true).write(true).custom_flags(O_NOCTTY).open(path).unwrap()
    };
    let reader = open("/dev/ptmx");
    let mut name: [c_char; 64] = [0; 64];
    // SAFETY: the file is a pseudo-terminal's, and the name fits its buffer or is refused.
    let failed = unsafe {
        unlockpt(reader.as_raw_fd()) | ptsname_r(reader.as_raw_fd(), name.as_mut_ptr(), name.len())
    };
    assert_eq!(failed, 0);
    // SAFETY: the name ends with a zero byte.
    let name = unsafe { CStr::from_ptr(name.as_ptr()) };
    (reader, open(name.to_str().unwrap()))
}

/// All that was written until the last program closed the terminal, which is an error here.
/// After the first bytes `then` is done.
pub fn written(mut reader: File, then: impl FnOnce()) -> String {
    let mut bytes = vec![0; 256];
    let first = reader.read(&mut bytes).unwrap_or(0);
    bytes.truncate(first);
    then();
    let _ = reader.read_to_end(&mut bytes);
    String::from_utf8(bytes).unwrap()
}
