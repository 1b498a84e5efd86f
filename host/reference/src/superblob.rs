//! The SuperBlob: tests 1 to 9, and the lookup of a blob by its type.
//!
//! Magic, length, count, then count pairs of (type, offset); all big-endian, offsets
//! from the SuperBlob's start. Every blob starts with magic and length; the length
//! includes these 8 bytes.

use crate::answer::{refuse, refuse_at, Answer, DONE};
use crate::bytes::{be32, part};

/// The most bytes of a signature, and of a side file of a whole check.
pub const MOST_SIGNATURE: u64 = 67_108_864;
pub const MOST_SIDE_FILE: u64 = 4_194_304;
pub const MOST_BLOBS: u64 = 64;
/// Bytes of the SuperBlob before its index.
pub const HEAD: u64 = 12;
pub const INDEX_ENTRY: u64 = 8;
pub const BLOB_HEAD: u64 = 8;

pub const CSMAGIC_EMBEDDED_SIGNATURE: u64 = 0xFADE0CC0;
pub const CSMAGIC_CODEDIRECTORY: u64 = 0xFADE0C02;
pub const CSMAGIC_REQUIREMENTS: u64 = 0xFADE0C01;
pub const CSMAGIC_EMBEDDED_ENTITLEMENTS: u64 = 0xFADE7171;
pub const CSMAGIC_EMBEDDED_DER_ENTITLEMENTS: u64 = 0xFADE7172;
pub const CSMAGIC_EMBEDDED_LAUNCH_CONSTRAINT: u64 = 0xFADE8181;
pub const CSMAGIC_BLOBWRAPPER: u64 = 0xFADE0B01;

/// The magic that a blob of this slot type has; none where the type is not known.
pub fn magic_of(kind: u64) -> Option<u64> {
    match kind {
        0 | 0x1000..=0x1004 => Some(CSMAGIC_CODEDIRECTORY),
        2 => Some(CSMAGIC_REQUIREMENTS),
        5 => Some(CSMAGIC_EMBEDDED_ENTITLEMENTS),
        7 => Some(CSMAGIC_EMBEDDED_DER_ENTITLEMENTS),
        8..=11 => Some(CSMAGIC_EMBEDDED_LAUNCH_CONSTRAINT),
        0x10000 => Some(CSMAGIC_BLOBWRAPPER),
        _ => None,
    }
}

fn length(signature: &[u8]) -> u64 {
    be32(signature, 4)
}

fn count(signature: &[u8]) -> u64 {
    be32(signature, 8)
}

fn index_end(signature: &[u8]) -> u64 {
    HEAD + INDEX_ENTRY * count(signature)
}

fn kind_at(signature: &[u8], position: u64) -> u64 {
    be32(signature, HEAD + INDEX_ENTRY * position)
}

fn offset_at(signature: &[u8], position: u64) -> u64 {
    be32(signature, HEAD + INDEX_ENTRY * position + 4)
}

fn blob_magic(signature: &[u8], position: u64) -> u64 {
    be32(signature, offset_at(signature, position))
}

fn blob_length(signature: &[u8], position: u64) -> u64 {
    be32(signature, offset_at(signature, position) + 4)
}

/// Test 6 at one position.
fn repeated(signature: &[u8], position: u64) -> bool {
    (0..position).any(|earlier| kind_at(signature, earlier) == kind_at(signature, position))
}

/// Test 7 at one position. The length is read only once its bytes are known to be
/// inside. Inside means inside the SuperBlob's stated length, not the lent bytes.
fn misplaced(signature: &[u8], position: u64) -> bool {
    let start = offset_at(signature, position);
    if start < index_end(signature) || start + BLOB_HEAD > length(signature) {
        return true;
    }
    let blob = blob_length(signature, position);
    blob < BLOB_HEAD || start + blob > length(signature)
}

/// Test 9 at one position.
fn overlaps(signature: &[u8], position: u64) -> bool {
    let start = offset_at(signature, position);
    let end = start + blob_length(signature, position);
    (0..position).any(|earlier| {
        let earlier_start = offset_at(signature, earlier);
        let earlier_end = earlier_start + blob_length(signature, earlier);
        start < earlier_end && earlier_start < end
    })
}

/// Tests 1 to 9. `side_file_too_long` is the second half of test 1, which only a
/// whole check can meet.
pub fn test(signature: &[u8], side_file_too_long: bool) -> Result<(), Answer> {
    let lent = signature.len() as u64;
    if !(HEAD..=MOST_SIGNATURE).contains(&lent) || side_file_too_long {
        return refuse(1);
    }
    if be32(signature, 0) != CSMAGIC_EMBEDDED_SIGNATURE {
        return refuse(2);
    }
    let count = count(signature);
    if count == 0 || count > MOST_BLOBS {
        return refuse(3);
    }
    if length(signature) < index_end(signature) || length(signature) > lent {
        return refuse(4);
    }
    if let Some(p) = (0..count).find(|&p| magic_of(kind_at(signature, p)).is_none()) {
        return refuse_at(5, p);
    }
    if let Some(p) = (0..count).find(|&p| repeated(signature, p)) {
        return refuse_at(6, p);
    }
    if let Some(p) = (0..count).find(|&p| misplaced(signature, p)) {
        return refuse_at(7, p);
    }
    let magic_wanted = |p| magic_of(kind_at(signature, p));
    if let Some(p) = (0..count).find(|&p| Some(blob_magic(signature, p)) != magic_wanted(p)) {
        return refuse_at(8, p);
    }
    if let Some(p) = (0..count).find(|&p| overlaps(signature, p)) {
        return refuse_at(9, p);
    }
    Ok(())
}

/// Where the blob of a type lies in a signature that passed tests 1 to 9.
pub fn place_of(signature: &[u8], kind: u64) -> Option<(u64, u64)> {
    let position = (0..count(signature)).find(|&p| kind_at(signature, p) == kind)?;
    Some((offset_at(signature, position), blob_length(signature, position)))
}

/// The blob of a type, head included, in a signature that passed tests 1 to 9.
pub fn blob(signature: &[u8], kind: u64) -> Option<&[u8]> {
    place_of(signature, kind).map(|(start, length)| part(signature, start, length))
}

/// What a lookup hands back: start and length are 0 where refused or where no blob
/// has the type.
#[derive(Clone, Copy, Debug, PartialEq, Eq)]
pub struct Found {
    pub answer: Answer,
    pub start: u64,
    pub length: u64,
}

/// A lookup of any number as a type: tests 1 to 9, else answers 0.
pub fn find(signature: &[u8], kind: u64) -> Found {
    if let Err(answer) = test(signature, false) {
        return Found { answer, start: 0, length: 0 };
    }
    let (start, length) = place_of(signature, kind).unwrap_or((0, 0));
    Found { answer: DONE, start, length }
}
