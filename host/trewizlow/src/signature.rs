//! The calls that are lent a signature alone: lookup, fields, hash.

use crate::Answer;

/// What a lookup finds: the answer of tests 1 to 9, and where the blob lies, its 8-byte head
/// included. Start and length are 0 where refused or where no blob has the type.
#[repr(C)]
#[derive(Clone, Copy, Debug, PartialEq, Eq)]
pub struct Blob {
    pub answer: Answer,
    pub start: usize,
    pub length: usize,
}

impl Blob {
    /// The blob as a part of the signature that was looked up in; empty where none was found.
    pub fn part<'a>(&self, signature: &'a [u8]) -> &'a [u8] {
        &signature[self.start..self.start + self.length]
    }
}

/// The answer of tests 1 to 18 and the directory's fields, each 0 where one of them refuses.
#[repr(C)]
#[derive(Clone, Copy, Debug, PartialEq, Eq)]
pub struct Directory {
    pub answer: Answer,
    /// Where the directory's blob lies in the signature.
    pub start: usize,
    pub length: usize,
    pub version: u32,
    pub flags: u32,
    pub hash_offset: u32,
    pub ident_offset: u32,
    pub special_slots: u32,
    pub code_slots: u32,
    /// Bytes of a slot.
    pub hash_size: u8,
    /// 1 SHA-1, 2 SHA-256, 3 SHA-256 cut to 20 bytes, 4 SHA-384.
    pub hash_type: u8,
    pub platform: u8,
    /// The pageSize field: a power of two, or 0 where the whole image is one page.
    pub page_shift: u8,
    /// codeLimit64 where the version has it and it is not 0, else codeLimit.
    pub code_limit: usize,
    /// Bytes of a page.
    pub page_size: usize,
    /// Bytes of the identifier before its zero byte.
    pub ident_length: usize,
}

/// The answer of tests 1 to 18 and the first 20 bytes of the directory's hash, zeros where
/// one of them refuses.
#[repr(C)]
#[derive(Clone, Copy, Debug, PartialEq, Eq)]
pub struct CdHash {
    pub answer: Answer,
    pub hash: [u8; 20],
}

extern "C" {
    fn trewizlow_find(signature: *const u8, signature_len: usize, kind: u32) -> Blob;
    fn trewizlow_read(signature: *const u8, signature_len: usize) -> Directory;
    fn trewizlow_cdhash(signature: *const u8, signature_len: usize) -> CdHash;
}

/// Looks up the blob of a slot type: tests 1 to 9.
pub fn find(signature: &[u8], kind: u32) -> Blob {
    // SAFETY: the buffer is valid for its length and its pointer is not null.
    unsafe { trewizlow_find(signature.as_ptr(), signature.len(), kind) }
}

/// The directory's fields: tests 1 to 18.
pub fn read(signature: &[u8]) -> Directory {
    // SAFETY: as in `find`.
    unsafe { trewizlow_read(signature.as_ptr(), signature.len()) }
}

/// The directory's hash, as a trust cache lists it: tests 1 to 18.
pub fn cdhash(signature: &[u8]) -> CdHash {
    // SAFETY: as in `find`.
    unsafe { trewizlow_cdhash(signature.as_ptr(), signature.len()) }
}
