//! Puts a new file in the place of an old one, or of none: made beside it, written, brought to
//! the disk, then renamed. A crash leaves the old bytes or the new ones.

use std::ffi::CString;
use std::fs::{self, File, Metadata, OpenOptions};
use std::hash::{BuildHasher, RandomState};
use std::io::{self, ErrorKind, Write};
use std::iter;
use std::os::unix::ffi::OsStrExt;
use std::os::unix::fs::{fchown, MetadataExt, OpenOptionsExt};
use std::path::{Path, PathBuf};

use crate::fault;

/// Names that are tried until one is free.
const TRIES: usize = 16;

/// The mode of a file that is to look like an old one: nobody else opens it before it does.
const PRIVATE: u32 = 0o600;
/// The mode of any new file, from which the system takes the user's mask.
const USUAL: u32 = 0o666;

/// Random names: nobody else can have taken one, and what a crash left is never met again.
fn names() -> impl Iterator<Item = String> {
    iter::repeat_with(|| format!(".trewizlow-{:016x}", RandomState::new().hash_one(())))
}

/// The directory that a path's last name stands in.
fn directory(path: &Path) -> &Path {
    let named = path.parent().filter(|parent| !parent.as_os_str().is_empty());
    named.unwrap_or(Path::new("."))
}

/// A file that this process made. It is removed unless it was renamed.
pub struct Beside {
    path: Option<PathBuf>,
    file: File,
}

impl Beside {
    /// An empty file in the directory of `path`, to take the place of `old` or of nothing.
    pub fn new(path: &Path, old: Option<&Metadata>) -> io::Result<Beside> {
        let new = Beside::create(directory(path), names(), old)?;
        old.map_or(Ok(()), |old| new.resemble(old))?;
        Ok(new)
    }

    fn create(
        directory: &Path,
        names: impl Iterator<Item = String>,
        old: Option<&Metadata>,
    ) -> io::Result<Beside> {
        let mut options = OpenOptions::new();
        options.write(true).create_new(true).mode(old.map_or(USUAL, |_| PRIVATE));
        for path in names.take(TRIES).map(|name| directory.join(name)) {
            match options.open(&path) {
                Err(error) if error.kind() == ErrorKind::AlreadyExists => {}
                opened => return opened.and_then(|file| Beside::of(path, file)),
            }
        }
        Err(ErrorKind::AlreadyExists.into())
    }

    fn of(path: PathBuf, file: File) -> io::Result<Beside> {
        fault::remove(Some(CString::new(path.as_os_str().as_bytes())?));
        Ok(Beside { path: Some(path), file })
    }

    /// Owner, group and permissions as the old file has them. Only a privileged user can give
    /// a file away, so that another's file may become this user's own.
    pub fn resemble(&self, old: &Metadata) -> io::Result<()> {
        let _ = fchown(&self.file, None, Some(old.gid()));
        let _ = fchown(&self.file, Some(old.uid()), None);
        self.file.set_permissions(old.permissions())
    }

    pub fn write(&mut self, bytes: &[u8]) -> io::Result<()> {
        self.file.write_all(bytes)?;
        self.file.sync_all()
    }

    pub fn rename(mut self, path: &Path) -> io::Result<()> {
        if let Some(own) = &self.path {
            fs::rename(own, path)?;
        }
        self.path = None;
        // Not every file system can bring a directory to the disk; old or new bytes are there
        // then.
        let _ = File::open(directory(path)).and_then(|directory| directory.sync_all());
        Ok(())
    }
}

impl Drop for Beside {
    fn drop(&mut self) {
        if let Some(path) = &self.path {
            let _ = fs::remove_file(path);
        }
        fault::remove(None);
    }
}

#[cfg(test)]
mod tests {
    use std::os::unix::fs::PermissionsExt;

    use super::*;

    /// A directory that goes with its files when the test ends.
    struct Scratch(PathBuf);

    impl Scratch {
        fn new() -> Scratch {
            let path = std::env::temp_dir().join(names().next().unwrap());
            fs::create_dir(&path).unwrap();
            Scratch(path)
        }
    }

    impl Drop for Scratch {
        fn drop(&mut self) {
            let _ = fs::remove_dir_all(&self.0);
        }
    }

    /// A name that is taken is passed over, and what has it stays; a file that was not
    /// renamed is removed.
    #[test]
    fn taken_names() {
        let scratch = Scratch::new();
        fs::write(scratch.0.join("taken"), b"theirs").unwrap();
        let create = || {
            let tried = ["taken", "free"].into_iter().map(String::from);
            Beside::create(&scratch.0, tried, None)
        };
        let beside = create().unwrap();
        assert_eq!(beside.path.as_deref(), Some(scratch.0.join("free").as_path()));
        assert_eq!(create().err().unwrap().kind(), ErrorKind::AlreadyExists);
        drop(beside);
        assert_eq!(fs::read(scratch.0.join("taken")).unwrap(), b"theirs");
        assert_eq!(fs::read_dir(&scratch.0).unwrap().count(), 1);
    }

    /// A file that is to look like another is nobody else's until it does.
    #[test]
    fn modes() {
        let scratch = Scratch::new();
        let old = scratch.0.join("old");
        fs::write(&old, b"old").unwrap();
        fs::set_permissions(&old, fs::Permissions::from_mode(0o664)).unwrap();
        let old = fs::metadata(&old).unwrap();
        let mode = |new: Beside| new.file.metadata().unwrap().mode() & 0o777;
        let created = Beside::create(&scratch.0, names(), Some(&old)).unwrap();
        assert_eq!(mode(created), PRIVATE);
        assert_eq!(mode(Beside::new(&scratch.0.join("old"), Some(&old)).unwrap()), 0o664);
    }

    #[test]
    fn names_differ() {
        let [one, other] = [names().next(), names().next()];
        assert_ne!(one, other);
    }
}
