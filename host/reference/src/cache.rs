//! The trust cache: tests 24 to 28. Its numbers are little-endian.
//!
//! Version (4 bytes), identifier (16), entry count (4), then entries: the directory's
//! hash (20), hash type, flags, constraint category, reserved.

use crate::answer::{refuse, refuse_at, Answer};
use crate::bytes::{le32, part, u8_at};
use crate::directory::CS_CDHASH_LEN;

pub const HEAD: u64 = 24;
pub const ENTRY: u64 = 24;
pub const VERSION: u64 = 2;
pub const MOST_ENTRIES: u64 = 65_536;
/// The highest constraint category that is known.
pub const HIGHEST_CATEGORY: u64 = 1;

fn count(cache: &[u8]) -> u64 {
    le32(cache, 20)
}

fn hash_at(cache: &[u8], entry: u64) -> &[u8] {
    part(cache, HEAD + ENTRY * entry, CS_CDHASH_LEN as u64)
}

fn hash_type_at(cache: &[u8], entry: u64) -> u64 {
    u8_at(cache, HEAD + ENTRY * entry + 20)
}

fn category_at(cache: &[u8], entry: u64) -> u64 {
    u8_at(cache, HEAD + ENTRY * entry + 22)
}

/// Test 24.
fn malformed(cache: &[u8]) -> bool {
    let length = cache.len() as u64;
    length < HEAD
        || le32(cache, 0) != VERSION
        || count(cache) > MOST_ENTRIES
        || length != HEAD + ENTRY * count(cache)
}

/// The entry that lists a directory, and its category.
#[derive(Clone, Copy, Debug, PartialEq, Eq)]
pub struct Listed {
    pub entry: u64,
    pub category: u64,
}

/// Tests 24 to 28, for a directory's own hash and its kind. Slices compare first byte first, as
/// the order asks.
pub fn test(cache: &[u8], cdhash: &[u8; CS_CDHASH_LEN], kind: u64) -> Result<Listed, Answer> {
    if malformed(cache) {
        return refuse(24);
    }
    let unordered = |e: u64| hash_at(cache, e) <= hash_at(cache, e - 1);
    if let Some(entry) = (1..count(cache)).find(|&e| unordered(e)) {
        return refuse_at(25, entry);
    }
    let Some(entry) = (0..count(cache)).find(|&e| hash_at(cache, e) == cdhash) else {
        return refuse(26);
    };
    if hash_type_at(cache, entry) != kind {
        return refuse_at(27, entry);
    }
    let category = category_at(cache, entry);
    if category > HIGHEST_CATEGORY {
        return refuse_at(28, category);
    }
    Ok(Listed { entry, category })
}
