//! The marks file: what may be one, and who replaces it, one after the other.

use std::fs::{self, File, OpenOptions};
use std::io::{self, ErrorKind};
use std::os::unix::fs::PermissionsExt;
use std::path::{Path, PathBuf};

use crate::files::{identity, Identity, Input, Lent, Opened};
use crate::progress::waiting;
use crate::replace::Beside;

/// The permission bits that let somebody write.
const WRITABLE: u32 = 0o222;

pub fn cannot_write(path: &Path, reason: impl std::fmt::Display) -> String {
    format!("cannot write the marks to {path:?}: {reason}")
}

/// What was looked at first has made room for something else, which is left alone.
pub fn exchanged() -> io::Error {
    io::Error::other("another file took its place meanwhile")
}

/// Replacing a file would destroy an input that it is, under whatever name.
pub fn no_input(path: &Path, marks: Identity, inputs: &[Input]) -> Result<(), String> {
    match inputs.iter().find(|input| input.identity == marks) {
        Some(input) => {
            Err(format!("the marks {path:?} and the input {:?} are one file", input.path))
        }
        None => Ok(()),
    }
}

/// Nothing is found there. A new file would take a symbolic link's place.
pub fn no_link(path: &Path) -> Result<(), String> {
    match path.is_symlink() {
        true => Err(cannot_write(path, "the symbolic link leads to no file")),
        false => Ok(()),
    }
}

/// A marks file that is there. It is opened for writing to learn whether that is allowed; the
/// bits are looked at because everything is allowed to a privileged user.
pub fn open(path: &Path) -> io::Result<File> {
    let file = OpenOptions::new().read(true).write(true).open(path)?;
    let metadata = file.metadata()?;
    if metadata.permissions().mode() & WRITABLE == 0 {
        return Err(io::Error::new(ErrorKind::PermissionDenied, "the file is read-only"));
    }
    if !metadata.is_file() {
        return Err(io::Error::new(ErrorKind::InvalidInput, "it is not a regular file"));
    }
    Ok(file)
}

/// An error where the marks of a recheck cannot be brought up to date, before anything is read.
pub fn examine(path: &Path) -> Result<(), String> {
    open(path).map(drop).map_err(|error| cannot_write(path, error))
}

/// A marks file under its lock, from reading the old marks to renaming the new ones.
pub struct Held {
    path: PathBuf,
    file: File,
    identity: Identity,
}

impl Held {
    fn open(path: &Path) -> io::Result<Held> {
        // Behind a symbolic link the file is replaced, not the link.
        let (path, file) = (fs::canonicalize(path)?, open(path)?);
        let identity = identity(&file.metadata()?);
        Ok(Held { path, file, identity })
    }

    /// True where the file still stands at its path.
    fn stands(&self) -> io::Result<bool> {
        match fs::symlink_metadata(&self.path) {
            Err(error) if error.kind() == ErrorKind::NotFound => Ok(false),
            found => Ok(identity(&found?) == self.identity),
        }
    }

    /// Waits for the lock. Whoever had it may have put another file in this one's place, and
    /// then the lock is that file's to take.
    fn lock(path: &Path) -> io::Result<Held> {
        loop {
            let held = Held::open(path)?;
            held.file.lock()?;
            if held.stands()? {
                return Ok(held);
            }
        }
    }

    /// Waits for the lock, under which it is seen that the file is no input; none where
    /// nothing is there.
    pub fn wait(path: &Path, inputs: &[Input]) -> Result<Option<Held>, String> {
        let what = "waiting for another run to release the marks";
        let held = match waiting(what, || Held::lock(path)) {
            Err(error) if error.kind() == ErrorKind::NotFound => {
                return no_link(path).map(|()| None);
            }
            held => held.map_err(|error| cannot_write(path, error))?,
        };
        no_input(path, held.identity, inputs)?;
        Ok(Some(held))
    }

    /// For a recheck: the old marks under their lock, and the file that is to take their place.
    pub fn with_new(path: &Path, inputs: &[Input]) -> Result<(Held, Beside), String> {
        let missing = || cannot_write(path, io::Error::from(ErrorKind::NotFound));
        let held = Held::wait(path, inputs)?.ok_or_else(missing)?;
        let old = held.file.metadata();
        let new = old.and_then(|old| Beside::new(&held.path, Some(&old)));
        Ok((held, new.map_err(|error| cannot_write(path, error))?))
    }

    pub fn read(&self, most: usize) -> Result<Lent, String> {
        let opened = self.file.try_clone().and_then(|file| Opened::of(&self.path, file));
        opened.map_err(|error| format!("cannot read {:?}: {error}", self.path))?.read(most)
    }

    /// What somebody put there without the lock, perhaps an input, is not replaced.
    fn put(&self, mut new: Beside, bytes: &[u8]) -> io::Result<()> {
        new.resemble(&self.file.metadata()?)?;
        new.write(bytes)?;
        if !self.stands()? {
            return Err(exchanged());
        }
        new.rename(&self.path)
    }

    /// The new file takes the old one's place.
    pub fn replace(self, new: Beside, bytes: &[u8]) -> Result<(), String> {
        self.put(new, bytes).map_err(|error| cannot_write(&self.path, error))
    }
}
