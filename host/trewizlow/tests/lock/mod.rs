//! A marks file's lock, held by a test, and children of it that wait.

use std::fs::{self, File};
use std::process::{Child, Command, Stdio};
use std::thread::sleep;
use std::time::Duration;

pub fn hold(path: &str) -> File {
    let file = File::open(path).unwrap();
    file.lock().unwrap();
    file
}

/// Starts the command and returns when it waits for a lock. It must not end instead.
pub fn until_it_waits(mut command: Command) -> Child {
    let mut child = command.stdout(Stdio::piped()).stderr(Stdio::piped()).spawn().unwrap();
    let id = child.id().to_string();
    let waits = |line: &str| line.contains("->") && line.split_whitespace().any(|word| word == id);
    while !fs::read_to_string("/proc/locks").unwrap().lines().any(waits) {
        assert!(child.try_wait().unwrap().is_none(), "it did not wait");
        sleep(Duration::from_millis(5));
    }
    child
}
