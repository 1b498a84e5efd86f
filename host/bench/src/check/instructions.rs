//! A search for processor hash instructions in an executable, by objdump.

use std::io::{BufRead, BufReader, ErrorKind};
use std::path::Path;
use std::process::{Command, Stdio};

/// What a search has found.
#[derive(Debug, Default, PartialEq)]
pub struct Found {
    /// Instructions read.
    pub read: usize,
    /// The hash instructions among them, as objdump writes them.
    pub hash: Vec<String>,
}

#[derive(Debug, PartialEq)]
pub enum Search {
    Done(Found),
    /// Why there was none.
    NotLooked(String),
}

/// True of names such as sha1rnds4, sha256msg1 and vsha512rnds2.
fn is_hash(word: &str) -> bool {
    let name = word.strip_prefix('v').unwrap_or(word);
    let behind = name.strip_prefix("sha").and_then(|rest| rest.chars().next());
    behind.is_some_and(|first| first.is_ascii_digit())
}

/// The instruction of a line: an address, a colon and a tab stand before it.
fn instruction(line: &str) -> Option<&str> {
    let (address, instruction) = line.split_once(":\t")?;
    let digits = address.trim_start();
    let is_address = !digits.is_empty() && digits.bytes().all(|byte| byte.is_ascii_hexdigit());
    is_address.then_some(instruction)
}

impl Found {
    fn add(&mut self, line: &str) {
        let Some(instruction) = instruction(line) else {
            return;
        };
        self.read += 1;
        // A prefix may stand before the name.
        if instruction.split_whitespace().take(2).any(is_hash) {
            self.hash.push(instruction.to_string());
        }
    }

    /// Line by line: the whole output is many times as long as the executable.
    fn of(output: impl BufRead) -> std::io::Result<Found> {
        let mut found = Found::default();
        for line in output.split(b'\n') {
            found.add(&String::from_utf8_lossy(&line?));
        }
        Ok(found)
    }
}

fn disassembled(executable: &Path) -> std::io::Result<Search> {
    let mut objdump = Command::new("objdump")
        .args(["-d", "--no-show-raw-insn"])
        .arg(executable)
        .stdout(Stdio::piped())
        .spawn()?;
    let found = Found::of(BufReader::new(objdump.stdout.take().expect("a pipe")))?;
    let status = objdump.wait()?;
    if !status.success() || found.read == 0 {
        return Ok(Search::NotLooked(format!("objdump read no instructions ({status})")));
    }
    Ok(Search::Done(found))
}

pub fn search(executable: &Path) -> Search {
    match disassembled(executable) {
        Ok(search) => search,
        Err(error) if error.kind() == ErrorKind::NotFound => {
            Search::NotLooked("no objdump".to_string())
        }
        Err(error) => Search::NotLooked(format!("objdump: {error}")),
    }
}

#[cfg(test)]
mod tests {
    use super::*;

    #[test]
    fn names() {
        for name in ["sha1rnds4", "sha256rnds2", "sha256msg1", "sha512h", "vsha512msg2"] {
            assert!(is_hash(name), "{name}");
        }
        for name in ["shl", "sar", "shrd", "sha", "vshufps", "v", "<sha256::value>", "256"] {
            assert!(!is_hash(name), "{name}");
        }
    }

    #[test]
    fn lines_of_objdump() {
        let text = "\nx:     file format elf64-x86-64\n\n0000000000001000 <sha256msg1>:\n\
                    \x20   1000:\tpush   %rbp\n    1001:\tsha256rnds2 %xmm0,%xmm1,%xmm2\n\
                    \x20   1006:\tcall   1000 <sha256msg1>\n    100b:\trex.W sha1msg1 %xmm1,%xmm2\n";
        let found = Found::of(text.as_bytes()).unwrap();
        let hash = ["sha256rnds2 %xmm0,%xmm1,%xmm2", "rex.W sha1msg1 %xmm1,%xmm2"];
        assert_eq!(found, Found { read: 4, hash: hash.map(str::to_string).to_vec() });
    }
}
