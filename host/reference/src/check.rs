//! The whole check: tests 1 to 31.

use crate::answer::{refuse, Answer};
use crate::bytes::part;
use crate::cache;
use crate::directory::{self, Directory};
use crate::launch::{self, Launch};
use crate::pages;
use crate::slots::{self, SideFiles};
use crate::superblob::MOST_SIDE_FILE;

/// What a whole check is lent, but for the marks.
#[derive(Clone, Copy, Debug)]
pub struct Lent<'a> {
    pub signature: &'a [u8],
    pub image: &'a [u8],
    pub cache: &'a [u8],
    pub files: SideFiles<'a>,
    pub launch: Launch,
}

/// The second half of test 1. A file that is not there is not looked at.
fn side_file_too_long(files: &SideFiles) -> bool {
    let too_long = |file: Option<&[u8]>| file.is_some_and(|f| f.len() as u64 > MOST_SIDE_FILE);
    too_long(files.info) || too_long(files.resources)
}

/// Tests 1 to 30; the directory and the cache entry where all pass.
fn test<'a>(lent: &Lent<'a>, marks: u64) -> Result<(Directory<'a>, u64), Answer> {
    let directory = directory::read(lent.signature, side_file_too_long(&lent.files))?;
    if (lent.image.len() as u64) < directory.code_limit() {
        return refuse(19);
    }
    if marks != directory.code_slots() {
        return refuse(20);
    }
    slots::test(lent.signature, &directory, &lent.files)?;
    let listed = cache::test(lent.cache, &directory.cdhash(), directory.hash_type())?;
    launch::test(listed.category, &lent.launch)?;
    Ok((directory, listed.entry))
}

/// The whole check. The marks are written only where it answers 0 or 31, and then
/// every one; what they held before is not read.
pub fn check(lent: &Lent, marks: &mut [u8]) -> Answer {
    let (directory, entry) = match test(lent, marks.len() as u64) {
        Ok(passed) => passed,
        Err(refusal) => return refusal,
    };
    for i in 0..directory.code_slots() {
        let (start, end) = pages::bounds(&directory, i);
        marks[i as usize] = pages::mark(&directory, i, part(lent.image, start, end - start));
    }
    match pages::lowest_differing(marks) {
        Some(page) => Answer { number: 31, place: page },
        None => Answer { number: 0, place: entry },
    }
}
