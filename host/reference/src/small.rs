//! Document 01's small program: three files, no side files, all facts false or 0.

use std::fs::File;
use std::io::Read;
use std::path::Path;

use crate::check::{check, Lent};
use crate::directory;
use crate::launch::Launch;
use crate::slots::SideFiles;

pub const SIGNATURE_MOST: u64 = 16 * 1024;
pub const IMAGE_MOST: u64 = 32 * 1024;
pub const CACHE_MOST: u64 = 16 * 1024;

/// A file's bytes, or the line to print in their place. A file that opens and cannot be
/// read, such as a directory, is as one that can't be opened.
fn read(path: &Path, most: u64) -> Result<Vec<u8>, String> {
    let mut bytes = Vec::new();
    let file = File::open(path).map_err(|_| "no file\n".to_string())?;
    let read = file.take(most + 1).read_to_end(&mut bytes);
    read.map_err(|_| "no file\n".to_string())?;
    if bytes.len() as u64 > most {
        return Err("too long\n".to_string());
    }
    Ok(bytes)
}

/// The answer's line. The files are judged one after the other.
fn answer(signature: &Path, image: &Path, cache: &Path) -> Result<String, String> {
    let signature = read(signature, SIGNATURE_MOST)?;
    let image = read(image, IMAGE_MOST)?;
    let cache = read(cache, CACHE_MOST)?;
    let slots = directory::read(&signature, false).map_or(0, |d| d.code_slots());
    let lent = Lent {
        signature: &signature,
        image: &image,
        cache: &cache,
        files: SideFiles::default(),
        launch: Launch::default(),
    };
    let answer = check(&lent, &mut vec![0; slots as usize]);
    Ok(format!("{} {}\n", answer.number, answer.place))
}

/// What the program prints.
pub fn run(signature: &Path, image: &Path, cache: &Path) -> String {
    answer(signature, image, cache).unwrap_or_else(|line| line)
}
