//! Builders of test inputs: signatures, directories and caches, good or damaged.
//!
//! A plan holds every field apart. A field that is `None` gets the value that makes
//! the whole well formed; a field that is given is written as it is.

use crate::directory::{cdhash, head_size};
use crate::kinds::{self, CS_HASHTYPE_SHA256};
use crate::superblob::{self, magic_of};

/// A slot of any width.
pub type Slot = Vec<u8>;

/// Writes a big-endian number over four bytes.
pub fn put32(bytes: &mut [u8], at: usize, value: u32) {
    bytes[at..at + 4].copy_from_slice(&value.to_be_bytes());
}

/// Writes a big-endian number over eight bytes.
pub fn put64(bytes: &mut [u8], at: usize, value: u64) {
    bytes[at..at + 8].copy_from_slice(&value.to_be_bytes());
}

/// The same bytes with a big-endian number written at `at`.
pub fn with32(bytes: &[u8], at: usize, value: u32) -> Vec<u8> {
    let mut changed = bytes.to_vec();
    put32(&mut changed, at, value);
    changed
}

/// The same bytes with one byte written at `at`.
pub fn with8(bytes: &[u8], at: usize, value: u8) -> Vec<u8> {
    let mut changed = bytes.to_vec();
    changed[at] = value;
    changed
}

/// A blob: magic, length, contents.
pub fn blob(magic: u32, contents: &[u8]) -> Vec<u8> {
    let mut bytes = magic.to_be_bytes().to_vec();
    bytes.extend_from_slice(&(contents.len() as u32 + 8).to_be_bytes());
    bytes.extend_from_slice(contents);
    bytes
}

/// A blob with the magic of a known type.
pub fn blob_of(kind: u32, contents: &[u8]) -> Vec<u8> {
    blob(magic_of(u64::from(kind)).expect("a known type") as u32, contents)
}

/// The bytes of a kind's slots.
pub fn width(kind: u8) -> usize {
    kinds::width(u64::from(kind)).expect("a hash kind") as usize
}

/// A directory to build: head, identifier, special slots from the highest down, code
/// slots, tail.
#[derive(Clone, Debug)]
pub struct DirectoryPlan {
    /// The kind that slots and the directory's own hash are made by, whatever the fields say.
    pub kind: u8,
    pub version: u32,
    pub flags: u32,
    pub hash_offset: Option<u32>,
    pub ident_offset: Option<u32>,
    pub special_count: Option<u32>,
    pub code_count: Option<u32>,
    pub code_limit: u32,
    pub hash_size: u8,
    pub hash_type: u8,
    pub platform: u8,
    pub page_shift: u8,
    /// This and code_limit64 are written where the head has them.
    pub scatter_offset: u32,
    pub code_limit64: u64,
    /// Without its zero byte.
    pub identifier: Vec<u8>,
    /// Slot 1 first.
    pub special: Vec<Slot>,
    pub code: Vec<Slot>,
    pub tail: Vec<u8>,
}

impl DirectoryPlan {
    /// A well-formed directory of SHA-256 without pages.
    pub fn new(version: u32) -> DirectoryPlan {
        DirectoryPlan::of_kind(version, CS_HASHTYPE_SHA256)
    }

    /// The same of a hash kind.
    pub fn of_kind(version: u32, kind: u8) -> DirectoryPlan {
        DirectoryPlan {
            kind,
            version,
            flags: 2,
            hash_offset: None,
            ident_offset: None,
            special_count: None,
            code_count: None,
            code_limit: 0,
            hash_size: width(kind) as u8,
            hash_type: kind,
            platform: 0,
            page_shift: 12,
            scatter_offset: 0,
            code_limit64: 0,
            identifier: b"id".to_vec(),
            special: Vec::new(),
            code: Vec::new(),
            tail: Vec::new(),
        }
    }

    /// The same directory over an image: code limit and code slots.
    pub fn over(mut self, image: &[u8], page_shift: u8) -> DirectoryPlan {
        self.page_shift = page_shift;
        self.code_limit = image.len() as u32;
        self.code = match page_shift {
            _ if image.is_empty() => Vec::new(),
            0 => vec![self.digest(image)],
            shift => image.chunks(1 << shift).map(|page| self.digest(page)).collect(),
        };
        self
    }

    /// The digest by the plan's kind.
    pub fn digest(&self, message: &[u8]) -> Slot {
        kinds::digest(u64::from(self.kind), message)
    }

    /// The directory's own hash by the plan's kind.
    pub fn cdhash(&self) -> [u8; 20] {
        cdhash(u64::from(self.kind), &self.bytes())
    }

    /// An empty slot of the plan's kind.
    pub fn empty(&self) -> Slot {
        vec![0; width(self.kind)]
    }

    /// Sets special slot k, k from 1; the slots below it that are not set are empty.
    pub fn with_special(mut self, k: usize, slot: Slot) -> DirectoryPlan {
        if self.special.len() < k {
            self.special.resize(k, self.empty());
        }
        self.special[k - 1] = slot;
        self
    }

    /// The head size; that of the newest version where the version has none.
    pub fn head(&self) -> usize {
        head_size(u64::from(self.version)).unwrap_or(108) as usize
    }

    /// Where code slot 0 is laid, whatever the field says.
    pub fn slots_start(&self) -> usize {
        let special: usize = self.special.iter().map(Vec::len).sum();
        self.head() + self.identifier.len() + 1 + special
    }

    pub fn bytes(&self) -> Vec<u8> {
        let mut bytes = vec![0; self.head()];
        bytes.extend_from_slice(&self.identifier);
        bytes.push(0);
        self.special.iter().rev().for_each(|slot| bytes.extend_from_slice(slot));
        self.code.iter().for_each(|slot| bytes.extend_from_slice(slot));
        bytes.extend_from_slice(&self.tail);
        self.write_head(&mut bytes);
        bytes
    }

    fn write_head(&self, bytes: &mut [u8]) {
        let length = bytes.len() as u32;
        put32(bytes, 0, superblob::CSMAGIC_CODEDIRECTORY as u32);
        put32(bytes, 4, length);
        put32(bytes, 8, self.version);
        put32(bytes, 12, self.flags);
        put32(bytes, 16, self.hash_offset.unwrap_or(self.slots_start() as u32));
        put32(bytes, 20, self.ident_offset.unwrap_or(self.head() as u32));
        put32(bytes, 24, self.special_count.unwrap_or(self.special.len() as u32));
        put32(bytes, 28, self.code_count.unwrap_or(self.code.len() as u32));
        put32(bytes, 32, self.code_limit);
        bytes[36..40].copy_from_slice(&[
            self.hash_size,
            self.hash_type,
            self.platform,
            self.page_shift,
        ]);
        if self.head() >= 48 {
            put32(bytes, 44, self.scatter_offset);
        }
        if self.head() >= 64 {
            put64(bytes, 56, self.code_limit64);
        }
    }
}

/// One blob of a signature with its index entry.
#[derive(Clone, Debug)]
pub struct BlobPlan {
    pub kind: u32,
    pub offset: Option<u32>,
    pub bytes: Vec<u8>,
    /// Bytes that belong to no blob, laid before this one.
    pub gap: Vec<u8>,
}

/// A signature to build: head, index, blobs, padding.
#[derive(Clone, Debug)]
pub struct SignaturePlan {
    pub magic: u32,
    pub length: Option<u32>,
    pub count: Option<u32>,
    pub blobs: Vec<BlobPlan>,
    /// The order in which blobs are laid, by position; empty for the index's order.
    pub order: Vec<usize>,
    /// Lent bytes after the SuperBlob.
    pub padding: Vec<u8>,
}

impl SignaturePlan {
    /// A well-formed SuperBlob of these blobs.
    pub fn new(blobs: Vec<(u32, Vec<u8>)>) -> SignaturePlan {
        let plan = |(kind, bytes)| BlobPlan { kind, offset: None, bytes, gap: Vec::new() };
        SignaturePlan {
            magic: superblob::CSMAGIC_EMBEDDED_SIGNATURE as u32,
            length: None,
            count: None,
            blobs: blobs.into_iter().map(plan).collect(),
            order: Vec::new(),
            padding: Vec::new(),
        }
    }

    fn laid_order(&self) -> Vec<usize> {
        if self.order.is_empty() {
            (0..self.blobs.len()).collect()
        } else {
            self.order.clone()
        }
    }

    /// Where each blob is laid, whatever its index entry says.
    pub fn starts(&self) -> Vec<usize> {
        let mut starts = vec![0; self.blobs.len()];
        let mut at = 12 + 8 * self.blobs.len();
        for position in self.laid_order() {
            at += self.blobs[position].gap.len();
            starts[position] = at;
            at += self.blobs[position].bytes.len();
        }
        starts
    }

    pub fn bytes(&self) -> Vec<u8> {
        let mut bytes = vec![0; 12 + 8 * self.blobs.len()];
        for position in self.laid_order() {
            bytes.extend_from_slice(&self.blobs[position].gap);
            bytes.extend_from_slice(&self.blobs[position].bytes);
        }
        let length = bytes.len() as u32;
        put32(&mut bytes, 0, self.magic);
        put32(&mut bytes, 4, self.length.unwrap_or(length));
        put32(&mut bytes, 8, self.count.unwrap_or(self.blobs.len() as u32));
        for (position, start) in self.starts().into_iter().enumerate() {
            let plan = &self.blobs[position];
            put32(&mut bytes, 12 + 8 * position, plan.kind);
            put32(&mut bytes, 16 + 8 * position, plan.offset.unwrap_or(start as u32));
        }
        bytes.extend_from_slice(&self.padding);
        bytes
    }
}

/// One entry of a trust cache.
#[derive(Clone, Copy, Debug)]
pub struct CacheEntry {
    pub hash: [u8; 20],
    pub hash_type: u8,
    pub flags: u8,
    pub category: u8,
    pub reserved: u8,
}

impl CacheEntry {
    pub fn new(hash: [u8; 20], category: u8) -> CacheEntry {
        CacheEntry::of_kind(CS_HASHTYPE_SHA256, hash, category)
    }

    pub fn of_kind(kind: u8, hash: [u8; 20], category: u8) -> CacheEntry {
        CacheEntry { hash, hash_type: kind, flags: 0, category, reserved: 0 }
    }
}

/// A trust cache to build; entries are laid in the order given.
#[derive(Clone, Debug)]
pub struct CachePlan {
    pub version: u32,
    pub count: Option<u32>,
    pub entries: Vec<CacheEntry>,
    pub tail: Vec<u8>,
}

impl CachePlan {
    pub fn new(entries: Vec<CacheEntry>) -> CachePlan {
        CachePlan { version: 2, count: None, entries, tail: Vec::new() }
    }

    pub fn bytes(&self) -> Vec<u8> {
        let mut bytes = self.version.to_le_bytes().to_vec();
        bytes.extend_from_slice(b"sixteen bytes id");
        let count = self.count.unwrap_or(self.entries.len() as u32);
        bytes.extend_from_slice(&count.to_le_bytes());
        for entry in &self.entries {
            bytes.extend_from_slice(&entry.hash);
            bytes.extend_from_slice(&[
                entry.hash_type,
                entry.flags,
                entry.category,
                entry.reserved,
            ]);
        }
        bytes.extend_from_slice(&self.tail);
        bytes
    }
}
