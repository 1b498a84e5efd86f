//! Tests 21 to 23.

use super::directory::Directory;
use super::superblob::Index;
use super::{refuse_at, Tested};
use crate::plain::MOST;

pub fn test(
    index: &Index,
    directory: &Directory,
    info: Option<&[u8]>,
    resources: Option<&[u8]>,
) -> Tested<()> {
    for k in 1..=11 {
        let thing = match k {
            1 => info,
            3 => resources,
            4 | 6 => None,
            _ => index.blob(k as u32),
        };
        match (directory.special_slot(k), thing) {
            (Some(_), None) => return refuse_at(21, k),
            (None, Some(_)) => return refuse_at(23, k),
            (Some(slot), Some(thing)) => {
                if slot != directory.kind.digest(thing, &mut [0; MOST]) {
                    return refuse_at(22, k);
                }
            }
            (None, None) => {}
        }
    }
    Ok(())
}
