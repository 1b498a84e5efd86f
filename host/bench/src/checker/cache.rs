//! Tests 24 to 28.

use super::{refuse, refuse_at, Tested};
use crate::plain::Kind;

const HEAD: usize = 24;
const ENTRY: usize = 24;
const HASH: usize = 20;

/// Test 24; the entries.
fn entries(cache: &[u8]) -> Tested<&[[u8; ENTRY]]> {
    let word = |at: usize| u32::from_le_bytes(cache[at..at + 4].try_into().unwrap());
    if cache.len() < HEAD || word(0) != 2 {
        return refuse(24);
    }
    let count = word(20) as usize;
    if count > 65_536 || cache.len() != HEAD + ENTRY * count {
        return refuse(24);
    }
    Ok(cache[HEAD..].as_chunks().0)
}

/// The entry that lists the hash under its kind, and the entry's category.
pub fn find(cache: &[u8], kind: Kind, cdhash: &[u8; HASH]) -> Tested<(usize, u8)> {
    let entries = entries(cache)?;
    if let Some(at) = entries.windows(2).position(|pair| pair[1][..HASH] <= pair[0][..HASH]) {
        return refuse_at(25, at + 1);
    }
    let Ok(at) = entries.binary_search_by(|entry| entry[..HASH].cmp(cdhash)) else {
        return refuse(26);
    };
    if entries[at][20] != kind as u8 {
        return refuse_at(27, at);
    }
    let category = entries[at][22];
    if category > 1 {
        return refuse_at(28, category.into());
    }
    Ok((at, category))
}
