//! Tests 1 to 9.

use trewizlow::MOST_SIGNATURE_BYTES;

use super::{be32, refuse, refuse_at, Tested};

const HEAD: usize = 12;
const ENTRY: usize = 8;
const BLOB_HEAD: usize = 8;

/// A blob of the index.
#[derive(Clone, Copy)]
struct Entry {
    kind: u32,
    start: usize,
    end: usize,
}

/// A SuperBlob that passed.
pub struct Index<'a> {
    signature: &'a [u8],
    entries: Vec<Entry>,
}

impl<'a> Index<'a> {
    /// The blob of a type, its head included.
    pub fn blob(&self, kind: u32) -> Option<&'a [u8]> {
        let entry = self.entries.iter().find(|entry| entry.kind == kind)?;
        Some(&self.signature[entry.start..entry.end])
    }
}

fn magic_of(kind: u32) -> Option<u32> {
    match kind {
        0 | 0x1000..=0x1004 => Some(0xFADE0C02),
        2 => Some(0xFADE0C01),
        5 => Some(0xFADE7171),
        7 => Some(0xFADE7172),
        8..=11 => Some(0xFADE8181),
        0x10000 => Some(0xFADE0B01),
        _ => None,
    }
}

/// Test 7 at one position.
fn placed(blobs: &[u8], first: usize, kind: u32, start: usize) -> Option<Entry> {
    if start < first || start + BLOB_HEAD > blobs.len() {
        return None;
    }
    let end = start + be32(blobs, start + 4) as usize;
    (end >= start + BLOB_HEAD && end <= blobs.len()).then_some(Entry { kind, start, end })
}

pub fn read(signature: &[u8]) -> Tested<Index<'_>> {
    if signature.len() < HEAD || signature.len() > MOST_SIGNATURE_BYTES {
        return refuse(1);
    }
    if be32(signature, 0) != 0xFADE0CC0 {
        return refuse(2);
    }
    let count = be32(signature, 8) as usize;
    if count == 0 || count > 64 {
        return refuse(3);
    }
    let (first, length) = (HEAD + ENTRY * count, be32(signature, 4) as usize);
    if length < first || length > signature.len() {
        return refuse(4);
    }
    let entries = entries(&signature[..length], first)?;
    Ok(Index { signature, entries })
}

/// Tests 5 to 9.
fn entries(blobs: &[u8], first: usize) -> Tested<Vec<Entry>> {
    let index: Vec<(u32, usize)> = blobs[HEAD..first]
        .chunks_exact(ENTRY)
        .map(|entry| (be32(entry, 0), be32(entry, 4) as usize))
        .collect();
    if let Some(p) = index.iter().position(|entry| magic_of(entry.0).is_none()) {
        return refuse_at(5, p);
    }
    let repeated = |p: &usize| index[..*p].iter().any(|earlier| earlier.0 == index[*p].0);
    if let Some(p) = (0..index.len()).find(repeated) {
        return refuse_at(6, p);
    }
    let mut entries: Vec<Entry> = Vec::with_capacity(index.len());
    for (p, &(kind, start)) in index.iter().enumerate() {
        match placed(blobs, first, kind, start) {
            Some(entry) => entries.push(entry),
            None => return refuse_at(7, p),
        }
    }
    if let Some(p) = entries.iter().position(|e| Some(be32(blobs, e.start)) != magic_of(e.kind)) {
        return refuse_at(8, p);
    }
    let meets = |one: &Entry, other: &Entry| one.start < other.end && other.start < one.end;
    let shares = |p: &usize| entries[..*p].iter().any(|earlier| meets(earlier, &entries[*p]));
    match (0..entries.len()).find(shares) {
        Some(p) => refuse_at(9, p),
        None => Ok(entries),
    }
}
