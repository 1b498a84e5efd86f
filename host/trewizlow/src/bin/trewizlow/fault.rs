//! Signals. SIGBUS, which the system sends where a byte of a mapped file is touched that the
//! file no longer has or that cannot be read, ends the process with a sentence and status 2.
//! What ends it by itself, such as an interrupt, first removes the file that it made.

use std::ffi::{c_char, c_int, c_void, CString};
use std::ptr;
use std::sync::atomic::{AtomicBool, AtomicPtr, Ordering};

use crate::outcome::FAILED;
use crate::progress;

// Linux's numbers.
const SIGBUS: c_int = 7;
/// SIGHUP, SIGINT and SIGTERM.
const ENDING: [c_int; 3] = [1, 2, 15];
const SIG_DFL: usize = 0;
const SIG_IGN: usize = 1;
const STANDARD_OUTPUT: c_int = 1;
const STANDARD_ERROR: c_int = 2;
const SENTENCE: &str = "a file changed or could not be read while it was checked";

static JSON: AtomicBool = AtomicBool::new(false);
/// The path of the file that goes with the process, or null.
static REMOVED: AtomicPtr<c_char> = AtomicPtr::new(ptr::null_mut());

extern "C" {
    fn signal(number: c_int, handler: usize) -> usize;
    fn raise(number: c_int) -> c_int;
    fn write(file: c_int, bytes: *const c_void, length: usize) -> isize;
    fn unlink(path: *const c_char) -> c_int;
    fn _exit(status: c_int) -> !;
}

pub fn answer_in_json(json: bool) {
    JSON.store(json, Ordering::Relaxed);
}

/// Sets what a signal does; what it did before. The handlers here make only calls that a
/// signal handler may make.
fn handle(number: c_int, handler: usize) -> usize {
    // SAFETY: the handler is one of the system's, or a function of this file.
    unsafe { signal(number, handler) }
}

/// The file that is removed when a signal ends the process. The few bytes of the path are
/// never freed, since the handler may come at any time.
pub fn remove(path: Option<CString>) {
    REMOVED.store(path.map_or(ptr::null_mut(), CString::into_raw), Ordering::Relaxed);
    for number in ENDING {
        // A signal that is ignored, as under nohup, stays so.
        if handle(number, interrupted as *const () as usize) == SIG_IGN {
            handle(number, SIG_IGN);
        }
    }
}

/// From here on a fault in a mapped file ends the process in that way.
pub fn expect() {
    handle(SIGBUS, end as *const () as usize);
}

fn remove_now() {
    let path = REMOVED.load(Ordering::Relaxed);
    if !path.is_null() {
        // SAFETY: the path ends with a zero byte and is never freed; `unlink` may be called in
        // a handler.
        unsafe { unlink(path) };
    }
}

/// Ends the process as the signal would have.
extern "C" fn interrupted(number: c_int) {
    remove_now();
    handle(number, SIG_DFL);
    // SAFETY: it may be called in a handler.
    unsafe { raise(number) };
}

fn put(file: c_int, text: &str) {
    // SAFETY: the bytes are valid for their length; `write` may be called in a handler.
    unsafe { write(file, text.as_ptr().cast(), text.len()) };
}

extern "C" fn end(_: c_int) {
    remove_now();
    if JSON.load(Ordering::Relaxed) {
        ["{\"error\":\"", SENTENCE, "\"}\n"].iter().for_each(|text| put(STANDARD_OUTPUT, text));
    }
    let clear = if progress::is_shown() { progress::CLEAR } else { "" };
    [clear, "trewizlow: ", SENTENCE, "\n"].iter().for_each(|text| put(STANDARD_ERROR, text));
    // SAFETY: it may be called in a handler, and does not return.
    unsafe { _exit(FAILED.into()) }
}
