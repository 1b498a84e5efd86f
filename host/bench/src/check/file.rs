//! Files that a run writes.

use std::fs;
use std::path::{Path, PathBuf};

use super::fault::Fault;

/// The name under which a file is written, beside its own.
fn temporary(path: &Path) -> PathBuf {
    let mut name = path.as_os_str().to_owned();
    name.push(format!(".{}", std::process::id()));
    name.into()
}

fn unwritten(path: &Path, error: &dyn std::fmt::Display) -> Fault {
    Fault::input(format!("{} cannot be written: {error}", path.display()))
}

/// Minutes of measuring should not end with a directory that is not there.
pub fn test(path: &Path) -> Result<(), Fault> {
    let parent = path.parent().filter(|parent| !parent.as_os_str().is_empty());
    if !parent.unwrap_or(Path::new(".")).is_dir() {
        return Err(unwritten(path, &"no such directory"));
    }
    if path.is_dir() {
        return Err(unwritten(path, &"it is a directory"));
    }
    Ok(())
}

/// Nobody sees a part of the file: it is renamed when all of it is written.
pub fn write(path: &Path, text: &str) -> Result<(), Fault> {
    let temporary = temporary(path);
    let written = fs::write(&temporary, text).and_then(|()| fs::rename(&temporary, path));
    written.map_err(|error| {
        let _ = fs::remove_file(&temporary);
        unwritten(path, &error)
    })
}

pub fn read(path: &Path) -> Result<String, Fault> {
    let unread = |error| Fault::input(format!("{} cannot be read: {error}", path.display()));
    fs::read_to_string(path).map_err(unread)
}
