//! The files that are lent: opened first, all of them, and read or mapped later.

use std::fs::{File, Metadata};
use std::io::{self, Read};
use std::ops::Deref;
use std::os::unix::fs::MetadataExt;
use std::path::{Path, PathBuf};

use trewizlow::Directory;

use crate::map::Map;
use crate::progress::during;

/// Device and inode: the same for each name of a file.
pub type Identity = (u64, u64);

pub fn identity(metadata: &Metadata) -> Identity {
    (metadata.dev(), metadata.ino())
}

/// What is known of an input before it is read and after.
pub struct Input {
    pub path: PathBuf,
    pub identity: Identity,
}

fn cannot_read(path: &Path, error: io::Error) -> String {
    format!("cannot read {path:?}: {error}")
}

/// A file that is open and not read yet.
pub struct Opened {
    path: PathBuf,
    file: File,
    metadata: Metadata,
}

impl Opened {
    pub fn new(path: &Path) -> Result<Opened, String> {
        let file = during(&format!("opening {path:?}"), || File::open(path));
        file.and_then(|file| Opened::of(path, file)).map_err(|error| cannot_read(path, error))
    }

    /// The file of this path, which is open already.
    pub fn of(path: &Path, file: File) -> io::Result<Opened> {
        let metadata = file.metadata()?;
        if metadata.is_dir() {
            return Err(io::ErrorKind::IsADirectory.into());
        }
        Ok(Opened { path: path.to_path_buf(), file, metadata })
    }

    pub fn input(&self) -> Input {
        Input { path: self.path.clone(), identity: identity(&self.metadata) }
    }

    /// A small file: all its bytes, or one more than `most` where it has more. That one byte
    /// lets the library see that the file is too long.
    pub fn read(self, most: usize) -> Result<Lent, String> {
        let bytes = self.fetched(most + 1);
        self.lent(bytes, most + 1, most)
    }

    /// The image, of which no more than the code limit is examined.
    pub fn image(self, code_limit: usize) -> Result<Lent, String> {
        let bytes = self.mapped(code_limit);
        self.lent(bytes, code_limit, code_limit)
    }

    /// The pages of a recheck, with one byte more as in `read`: no pages have more bytes than
    /// the code limit. None where the signature is refused, since none is then looked at.
    pub fn pages(self, directory: &Directory) -> Result<Lent, String> {
        let wanted = if directory.answer.accepted() { directory.code_limit + 1 } else { 0 };
        let bytes = self.mapped(wanted);
        self.lent(bytes, wanted, directory.code_limit)
    }

    fn lent(self, bytes: io::Result<Bytes>, wanted: usize, most: usize) -> Result<Lent, String> {
        let bytes = bytes.map_err(|error| cannot_read(&self.path, error))?;
        let empty = wanted > 0 && bytes.is_empty();
        Ok(Lent { path: self.path, bytes, empty, most })
    }

    /// Bytes in a buffer, up to `wanted`.
    fn fetched(&self, wanted: usize) -> io::Result<Bytes> {
        let mut bytes = Vec::new();
        // A regular file's length spares growing the buffer again and again.
        let length = usize::try_from(self.metadata.len()).unwrap_or(usize::MAX);
        bytes.try_reserve_exact(length.min(wanted)).map_err(|_| io::ErrorKind::OutOfMemory)?;
        let what = format!("reading {:?}", self.path);
        during(&what, || (&self.file).take(wanted as u64).read_to_end(&mut bytes))?;
        Ok(Bytes::Fetched(bytes))
    }

    /// A regular file's bytes where they lie, up to `wanted`. Nothing else can be mapped, nor
    /// can no bytes at all.
    fn mapped(&self, wanted: usize) -> io::Result<Bytes> {
        let length = usize::try_from(self.metadata.len()).unwrap_or(usize::MAX).min(wanted);
        if self.metadata.is_file() && length > 0 {
            return Map::new(&self.file, length).map(Bytes::Mapped);
        }
        self.fetched(wanted)
    }
}

pub enum Bytes {
    Fetched(Vec<u8>),
    Mapped(Map),
}

impl Deref for Bytes {
    type Target = [u8];

    fn deref(&self) -> &[u8] {
        match self {
            Bytes::Fetched(bytes) => bytes,
            Bytes::Mapped(map) => map,
        }
    }
}

/// A file's bytes as the library is lent them.
pub struct Lent {
    pub path: PathBuf,
    pub bytes: Bytes,
    empty: bool,
    most: usize,
}

impl Lent {
    /// True where the file has more bytes than any that is not refused for its length.
    pub fn is_long(&self) -> bool {
        self.bytes.len() > self.most
    }

    /// What is odd about the file's length, for somebody who wonders at a refusal.
    pub fn note(&self) -> Option<String> {
        if self.empty {
            return Some(format!("{:?} is empty", self.path));
        }
        self.is_long().then(|| format!("{:?} is longer than {} bytes", self.path, self.most))
    }
}

/// The notes on files, which are of use only where the answer is a refusal.
pub fn notes<'a>(refused: bool, files: impl IntoIterator<Item = &'a Lent>) -> Vec<String> {
    if !refused {
        return Vec::new();
    }
    files.into_iter().filter_map(Lent::note).collect()
}

/// A length for a line of progress.
pub fn mebibytes(bytes: &[u8]) -> String {
    format!("{} MiB", bytes.len().div_ceil(1 << 20))
}
