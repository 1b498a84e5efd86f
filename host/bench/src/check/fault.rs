//! What ends a run, and its exit status.

use super::arguments::USAGE;

/// The programs differ, or a hash instruction is there.
const DIFFERS: u8 = 1;
/// Arguments or files.
const INPUT: u8 = 2;

#[derive(Debug)]
pub struct Fault {
    pub message: String,
    pub status: u8,
}

impl Fault {
    pub fn differs(message: String) -> Fault {
        Fault { message, status: DIFFERS }
    }

    pub fn input(message: String) -> Fault {
        Fault { message, status: INPUT }
    }

    pub fn usage(message: &str) -> Fault {
        Fault::input(format!("{message}\n{}", USAGE.trim_end()))
    }
}
