//! A straightforward Rust checker: the same tests and answers as the library, each page
//! hashed once where it lies, no processor hash instructions. It is what the proved code is
//! measured against; tests/checker.rs holds its answers to the reference's.

mod cache;
mod directory;
mod pages;
mod slots;
mod superblob;

use trewizlow::{Answer, Launch, Lent, Verdict, MOST_SIDE_FILE_BYTES};

use directory::Directory;

/// The refusal of the first test that fails.
type Tested<T> = Result<T, Answer>;

fn refuse<T>(number: u32) -> Tested<T> {
    refuse_at(number, 0)
}

fn refuse_at<T>(number: u32, place: usize) -> Tested<T> {
    Err(Answer { number, place })
}

fn be32(bytes: &[u8], at: usize) -> u32 {
    u32::from_be_bytes(bytes[at..at + 4].try_into().unwrap())
}

fn be64(bytes: &[u8], at: usize) -> u64 {
    u64::from_be_bytes(bytes[at..at + 8].try_into().unwrap())
}

/// Tests 29 and 30.
fn launch_test(category: u8, launch: &Launch) -> Tested<()> {
    if category == 0 {
        return Ok(());
    }
    let volume = launch.on_authorized_volume || launch.on_system_volume;
    if !volume || launch.launch_type != 1 || launch.validation_category != 1 {
        return refuse(29);
    }
    if !launch.parent_is_init {
        return refuse(30);
    }
    Ok(())
}

/// Tests 1 to 30; the directory and the cache entry.
fn test<'a>(lent: &Lent<'a>, marks: usize) -> Tested<(Directory<'a>, usize)> {
    let too_long = |file: Option<&[u8]>| file.is_some_and(|f| f.len() > MOST_SIDE_FILE_BYTES);
    if too_long(lent.info_plist) || too_long(lent.code_resources) {
        return refuse(1);
    }
    let index = superblob::read(lent.signature)?;
    let directory = directory::read(&index)?;
    if lent.image.len() < directory.code_limit {
        return refuse(19);
    }
    if marks != directory.code_slots {
        return refuse(20);
    }
    slots::test(&index, &directory, lent.info_plist, lent.code_resources)?;
    let (entry, category) = cache::find(lent.cache, directory.kind, &directory.cdhash())?;
    launch_test(category, &lent.launch)?;
    Ok((directory, entry))
}

/// The whole check.
pub fn check(lent: &Lent, marks: &mut [u8]) -> Verdict {
    let (directory, entry) = match test(lent, marks.len()) {
        Ok(passed) => passed,
        Err(Answer { number, place }) => return Verdict { number, place },
    };
    pages::mark(&directory, 0, &lent.image[..directory.code_limit], marks);
    match pages::lowest_differing(marks) {
        Some(place) => Verdict { number: 31, place },
        None => Verdict { number: 0, place: entry },
    }
}

/// The recheck's tests; the directory and the pages met.
fn recheck_test<'a>(
    signature: &'a [u8],
    (start, length): (u64, u64),
    pages: usize,
    marks: &[u8],
) -> Tested<(Directory<'a>, std::ops::Range<usize>)> {
    let directory = directory::read(&superblob::read(signature)?)?;
    if marks.len() != directory.code_slots {
        return refuse(20);
    }
    let end = start.checked_add(length).filter(|end| *end <= directory.code_limit as u64);
    let Some(end) = end else {
        return refuse(32);
    };
    let met = pages::met(&directory, start as usize, end as usize);
    if pages != pages::bytes_of(&directory, &met) {
        return refuse(33);
    }
    if let Some(page) = pages::lowest_unmarked(marks) {
        return refuse_at(34, page);
    }
    Ok((directory, met))
}

/// The recheck of a range.
pub fn recheck(
    signature: &[u8],
    start: u64,
    length: u64,
    pages: &[u8],
    marks: &mut [u8],
) -> Answer {
    let (directory, met) = match recheck_test(signature, (start, length), pages.len(), marks) {
        Ok(passed) => passed,
        Err(refusal) => return refusal,
    };
    pages::mark(&directory, met.start, pages, &mut marks[met]);
    match pages::lowest_differing(marks) {
        Some(place) => Answer { number: 31, place },
        None => Answer { number: 0, place: 0 },
    }
}
