//! Where a whole check's marks go: a file that is made or replaced, a device or a pipe.

use std::fs::{self, File, Metadata, OpenOptions};
use std::io::{self, ErrorKind, Write};
use std::os::fd::{AsFd, BorrowedFd};
use std::os::unix::ffi::OsStrExt;
use std::path::Path;

use crate::files::{identity, Identity, Input};
use crate::marks::{cannot_write, exchanged, no_input, no_link, open, Held};
use crate::progress::during;
use crate::replace::Beside;

pub struct Out<'a> {
    path: &'a Path,
    inputs: Vec<Input>,
    kind: Kind,
}

enum Kind {
    /// The new file, which is to take the place of a regular file or of nothing.
    File(Beside),
    /// A device or a pipe.
    Stream(Identity),
    /// What standard output or standard error is: opened again, it would be cut.
    Standard(File),
}

/// Standard output or standard error, where the marks go there, as with /dev/stdout.
fn standard(marks: &Metadata) -> Option<File> {
    let (output, error) = (io::stdout(), io::stderr());
    let same = |stream: BorrowedFd| {
        let file = File::from(stream.try_clone_to_owned().ok()?);
        let metadata = file.metadata().ok()?;
        (identity(&metadata) == identity(marks)).then_some(file)
    };
    same(output.as_fd()).or_else(|| same(error.as_fd()))
}

/// The file that is to take the place of nothing. A path that ends with a slash or with dots
/// has a last name before these, and names no file.
fn first(path: &Path) -> io::Result<Beside> {
    let whole = path.as_os_str().as_bytes();
    match path.file_name().filter(|name| whole.ends_with(name.as_bytes())) {
        Some(_) => Beside::new(path, None),
        None => Err(io::Error::new(ErrorKind::InvalidFilename, "the path names no file")),
    }
}

/// The file that is to take an old one's place.
fn next(path: &Path) -> io::Result<Beside> {
    let old = open(path)?.metadata()?;
    Beside::new(&fs::canonicalize(path)?, Some(&old))
}

fn kind(path: &Path, inputs: &[Input]) -> Result<Kind, String> {
    let file = |new: io::Result<Beside>| new.map(Kind::File).map_err(|e| cannot_write(path, e));
    let marks = match fs::metadata(path) {
        Err(error) if error.kind() == ErrorKind::NotFound => {
            no_link(path)?;
            return file(first(path));
        }
        found => found.map_err(|error| cannot_write(path, error))?,
    };
    no_input(path, identity(&marks), inputs)?;
    if let Some(file) = standard(&marks) {
        return Ok(Kind::Standard(file));
    }
    if !marks.is_file() && !marks.is_dir() {
        return Ok(Kind::Stream(identity(&marks)));
    }
    file(next(path))
}

/// Writes to the device or pipe that was there before. A path may lead elsewhere by now, and
/// opening alone changes nothing there.
fn stream(path: &Path, before: Identity, bytes: &[u8]) -> io::Result<()> {
    let mut file = OpenOptions::new().write(true).open(path)?;
    if identity(&file.metadata()?) != before {
        return Err(exchanged());
    }
    file.write_all(bytes)
}

impl<'a> Out<'a> {
    /// An error where the marks cannot be written there, before anything is read.
    pub fn new(path: &'a Path, inputs: Vec<Input>) -> Result<Out<'a>, String> {
        let kind = kind(path, &inputs)?;
        Ok(Out { path, inputs, kind })
    }

    pub fn write(self, bytes: &[u8]) -> Result<(), String> {
        let written = match self.kind {
            Kind::Standard(mut file) => file.write_all(bytes),
            Kind::Stream(before) => {
                during("writing the marks", || stream(self.path, before, bytes))
            }
            Kind::File(mut new) => match Held::wait(self.path, &self.inputs)? {
                Some(held) => return held.replace(new, bytes),
                None => new.write(bytes).and_then(|()| new.rename(self.path)),
            },
        };
        written.map_err(|error| cannot_write(self.path, error))
    }
}
