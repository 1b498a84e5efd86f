//! `trewizlow show`.

mod names;
mod object;
mod table;

use std::path::Path;

use trewizlow::{cdhash, find, read, Answer, Blob, CdHash, Directory, MOST_SIGNATURE_BYTES};

use crate::arguments::{Arguments, Names};
use crate::command::Command;
use crate::files::{notes, Opened};
use crate::help;
use crate::kinds;
use crate::outcome::Outcome;
use crate::remarks::remarks;
use names::BLOBS;

pub const COMMAND: Command = Command {
    called: &["show"],
    names: Names { valued: &[], flags: &["--all-slots"] },
    help: help::SHOW,
    run,
};

/// What the library says of a signature.
struct Shown<'a> {
    signature: &'a [u8],
    /// The blobs by their start: slot type, name and place.
    blobs: Vec<(u32, &'static str, Blob)>,
    directory: Directory,
    cdhash: CdHash,
}

impl<'a> Shown<'a> {
    fn new(signature: &'a [u8]) -> Shown<'a> {
        let found = BLOBS.iter().map(|&(kind, name)| (kind, name, find(signature, kind)));
        let mut blobs: Vec<_> = found.filter(|(_, _, blob)| blob.length > 0).collect();
        blobs.sort_by_key(|(_, _, blob)| blob.start);
        Shown { signature, blobs, directory: read(signature), cdhash: cdhash(signature) }
    }

    fn answer(&self) -> Answer {
        self.directory.answer
    }

    /// Bytes of the directory; none where they do not lie in it.
    fn part(&self, start: usize, length: usize) -> &'a [u8] {
        let from = self.directory.start + start;
        self.signature.get(from..from + length).unwrap_or_default()
    }

    fn identifier(&self) -> &'a [u8] {
        self.part(self.directory.ident_offset as usize, self.directory.ident_length)
    }

    /// Bytes of a slot: by test 13 hashSize is the hash kind's.
    fn slot_width(&self) -> usize {
        self.directory.hash_size.into()
    }

    /// Special slot k, from 1.
    fn special_slot(&self, k: usize) -> &'a [u8] {
        let width = self.slot_width();
        self.part(self.directory.hash_offset as usize - width * k, width)
    }

    fn code_slot(&self, i: usize) -> &'a [u8] {
        let width = self.slot_width();
        self.part(self.directory.hash_offset as usize + width * i, width)
    }
}

fn hex(bytes: &[u8]) -> String {
    bytes.iter().map(|byte| format!("{byte:02x}")).collect()
}

fn run(arguments: &Arguments) -> Result<Outcome, String> {
    let [path] = arguments.words.as_slice() else {
        return Err("show wants one signature file; see --help".to_string());
    };
    let file = Opened::new(Path::new(path))?.read(MOST_SIGNATURE_BYTES)?;
    let shown = Shown::new(&file.bytes);
    let text = if arguments.json() {
        object::text(&shown)
    } else {
        table::text(&shown, arguments.flag("--all-slots"))
    };
    let passed = shown.answer().accepted();
    let mut notes = notes(!passed, [&file]);
    notes.extend(remarks(&file));
    let warnings = kinds::warning(&file.bytes).into_iter().collect();
    Ok(Outcome { passed, notes, warnings, ..Outcome::text(text) })
}
