//! Special slots and the things that they cover: tests 21 to 23.

use crate::answer::{refuse_at, Answer};
use crate::directory::{Directory, MOST_SPECIAL_SLOTS};
use crate::superblob;

/// The side files of a whole check; none where the flag is off.
#[derive(Clone, Copy, Debug, Default)]
pub struct SideFiles<'a> {
    pub info: Option<&'a [u8]>,
    pub resources: Option<&'a [u8]>,
}

/// What slot k covers, if it is there.
fn thing<'a>(signature: &'a [u8], files: &SideFiles<'a>, k: u64) -> Option<&'a [u8]> {
    match k {
        1 => files.info,
        3 => files.resources,
        2 | 5 | 7..=11 => superblob::blob(signature, k),
        _ => None,
    }
}

/// Tests 21 to 23: one test over k, so the lowest k decides whichever it is.
pub fn test(signature: &[u8], directory: &Directory, files: &SideFiles) -> Result<(), Answer> {
    for k in 1..=MOST_SPECIAL_SLOTS {
        match (directory.special_slot(k), thing(signature, files, k)) {
            (Some(_), None) => return refuse_at(21, k),
            (Some(slot), Some(thing)) if directory.digest(thing) != slot => {
                return refuse_at(22, k)
            }
            (None, Some(_)) => return refuse_at(23, k),
            _ => {}
        }
    }
    Ok(())
}
