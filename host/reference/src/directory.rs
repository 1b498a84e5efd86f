//! The code directory: tests 10 to 18 with 46 after 14 and 35 after 15, its fields, and where its
//! slots lie.
//!
//! All numbers are big-endian and all offsets count from the directory's start.

use crate::answer::{refuse, Answer};
use crate::bytes::{be32, be64, part, u8_at};
use crate::kinds;
use crate::pages;
use crate::superblob;

pub const CSSLOT_CODEDIRECTORY: u64 = 0;
pub const MOST_CODE_SLOTS: u64 = 1_048_576;
pub const MOST_CODE_LIMIT: u64 = 17_179_869_184;
pub const MOST_SPECIAL_SLOTS: u64 = 11;
/// Bytes of the directory's hash that a trust cache lists.
pub const CS_CDHASH_LEN: usize = 20;
/// The first versions that have scatterOffset and codeLimit64.
const WITH_SCATTER: u64 = 0x20100;
const WITH_CODE_LIMIT_64: u64 = 0x20300;
const CS_ADHOC: u64 = 0x2;
const CS_HARD: u64 = 0x100;
const CS_KILL: u64 = 0x200;
const CS_CHECK_EXPIRATION: u64 = 0x400;
const CS_RESTRICT: u64 = 0x800;
const CS_ENFORCEMENT: u64 = 0x1000;
const CS_REQUIRE_LV: u64 = 0x2000;
const CS_RUNTIME: u64 = 0x10000;
const CS_LINKER_SIGNED: u64 = 0x20000;
/// The flags that a directory may hold.
#[rustfmt::skip]
pub const CS_ALLOWED_MACHO: u64 = CS_ADHOC | CS_HARD | CS_KILL | CS_CHECK_EXPIRATION
    | CS_RESTRICT | CS_ENFORCEMENT | CS_REQUIRE_LV | CS_RUNTIME | CS_LINKER_SIGNED;
/// The end of the version field: a shorter directory has no version to test.
const VERSION_END: u64 = 12;

/// The head size of a version; none outside 0x20001 to 0x20600.
pub fn head_size(version: u64) -> Option<u64> {
    match version {
        0x20001..=0x200FF => Some(44),
        0x20100..=0x201FF => Some(48),
        0x20200..=0x202FF => Some(52),
        0x20300..=0x203FF => Some(64),
        0x20400..=0x204FF => Some(88),
        0x20500..=0x205FF => Some(96),
        0x20600 => Some(108),
        _ => None,
    }
}

/// The first 20 bytes of a directory's hash.
pub fn cut(hash: &[u8]) -> [u8; CS_CDHASH_LEN] {
    std::array::from_fn(|i| hash[i])
}

/// A directory's own hash: of its whole blob, by its kind, cut.
pub fn cdhash(kind: u64, blob: &[u8]) -> [u8; CS_CDHASH_LEN] {
    cut(&kinds::digest(kind, blob))
}

/// A directory's blob, head included, and where it starts in the signature.
#[derive(Clone, Copy, Debug)]
pub struct Directory<'a> {
    pub bytes: &'a [u8],
    pub start: u64,
}

impl<'a> Directory<'a> {
    pub fn length(&self) -> u64 {
        self.bytes.len() as u64
    }
    pub fn version(&self) -> u64 {
        be32(self.bytes, 8)
    }
    pub fn flags(&self) -> u64 {
        be32(self.bytes, 12)
    }
    pub fn hash_offset(&self) -> u64 {
        be32(self.bytes, 16)
    }
    pub fn ident_offset(&self) -> u64 {
        be32(self.bytes, 20)
    }
    pub fn special_slots(&self) -> u64 {
        be32(self.bytes, 24)
    }
    pub fn code_slots(&self) -> u64 {
        be32(self.bytes, 28)
    }
    /// codeLimit64 where the version has it and it is not 0, else codeLimit.
    pub fn code_limit(&self) -> u64 {
        if self.version() >= WITH_CODE_LIMIT_64 && be64(self.bytes, 56) != 0 {
            return be64(self.bytes, 56);
        }
        be32(self.bytes, 32)
    }
    pub fn hash_size(&self) -> u64 {
        u8_at(self.bytes, 36)
    }
    pub fn hash_type(&self) -> u64 {
        u8_at(self.bytes, 37)
    }
    pub fn platform(&self) -> u64 {
        u8_at(self.bytes, 38)
    }
    /// The pageSize field: the power of two, or 0 for one page.
    pub fn page_shift(&self) -> u64 {
        u8_at(self.bytes, 39)
    }
    /// The code slots then do not cover the file from byte 0 upward.
    fn scatter_offset_set(&self) -> bool {
        self.version() >= WITH_SCATTER && be32(self.bytes, 44) != 0
    }
    /// P.
    pub fn page_size(&self) -> u64 {
        pages::page_size(self.page_shift(), self.code_limit())
    }

    /// The bytes of a slot, of a directory that passed test 13.
    fn slot_width(&self) -> u64 {
        kinds::width(self.hash_type()).expect("tested by 13")
    }

    /// The digest of a page or a thing, as its slot must hold it.
    pub fn digest(&self, message: &[u8]) -> Vec<u8> {
        kinds::digest(self.hash_type(), message)
    }

    /// Code slot i.
    pub fn code_slot(&self, i: u64) -> &'a [u8] {
        let width = self.slot_width();
        part(self.bytes, self.hash_offset() + width * i, width)
    }

    /// Special slot k, k from 1; none where it is empty.
    pub fn special_slot(&self, k: u64) -> Option<&'a [u8]> {
        if k > self.special_slots() {
            return None;
        }
        let width = self.slot_width();
        let slot = part(self.bytes, self.hash_offset() - width * k, width);
        slot.iter().any(|&byte| byte != 0).then_some(slot)
    }

    /// Bytes of the identifier before its zero byte; none where no zero byte follows.
    pub fn ident_length(&self) -> Option<u64> {
        let rest = self.bytes.get(self.ident_offset() as usize..)?;
        rest.iter().position(|&byte| byte == 0).map(|at| at as u64)
    }

    /// The fields in the order of the C interface, of a directory that passed test 18.
    pub fn fields(&self) -> [u64; 15] {
        [
            self.start,
            self.length(),
            self.version(),
            self.flags(),
            self.hash_offset(),
            self.ident_offset(),
            self.special_slots(),
            self.code_slots(),
            self.hash_size(),
            self.hash_type(),
            self.platform(),
            self.page_shift(),
            self.code_limit(),
            self.page_size(),
            self.ident_length().expect("tested by 18"),
        ]
    }

    pub fn cdhash(&self) -> [u8; CS_CDHASH_LEN] {
        cdhash(self.hash_type(), self.bytes)
    }

    /// Test 16.
    fn counts_wrong(&self) -> bool {
        self.code_slots() != pages::page_count(self.page_shift(), self.code_limit())
            || self.code_slots() > MOST_CODE_SLOTS
            || self.special_slots() > MOST_SPECIAL_SLOTS
    }

    /// Test 17, slot by slot. Without slots nothing reaches anywhere, so hashOffset is
    /// then free. Signed numbers, as a special slot may start below 0.
    fn slot_outside(&self, head: u64) -> bool {
        let (head, length) = (head as i128, self.length() as i128);
        let (base, slot) = (self.hash_offset() as i128, self.slot_width() as i128);
        let special = 1..=self.special_slots() as i128;
        let code = 0..self.code_slots() as i128;
        let starts = special.map(|k| base - slot * k).chain(code.map(|i| base + slot * i));
        starts.into_iter().any(|start| start < head || start + slot > length)
    }
}

/// Tests 1 to 18.
pub fn read(signature: &[u8], side_file_too_long: bool) -> Result<Directory<'_>, Answer> {
    superblob::test(signature, side_file_too_long)?;
    let Some((start, length)) = superblob::place_of(signature, CSSLOT_CODEDIRECTORY) else {
        return refuse(10);
    };
    let directory = Directory { bytes: part(signature, start, length), start };
    let head = test_fields(&directory)?;
    test_slots(&directory, head)?;
    Ok(directory)
}

/// Tests 11 to 15 and 35; the head's size. From 12 bytes on the version is tested first, so a
/// directory of 12 bytes with a version outside the ranges is 11.
fn test_fields(directory: &Directory) -> Result<u64, Answer> {
    if directory.length() < VERSION_END {
        return refuse(12);
    }
    let Some(head) = head_size(directory.version()) else {
        return refuse(11);
    };
    if directory.length() < head {
        return refuse(12);
    }
    if kinds::width(directory.hash_type()) != Some(directory.hash_size()) {
        return refuse(13);
    }
    if ![0, 12, 14].contains(&directory.page_shift()) {
        return refuse(14);
    }
    if directory.flags() & !CS_ALLOWED_MACHO != 0 {
        return refuse(46);
    }
    if directory.code_limit() > MOST_CODE_LIMIT {
        return refuse(15);
    }
    if directory.scatter_offset_set() {
        return refuse(35);
    }
    Ok(head)
}

/// Tests 16 to 18.
fn test_slots(directory: &Directory, head: u64) -> Result<(), Answer> {
    if directory.counts_wrong() {
        return refuse(16);
    }
    if directory.slot_outside(head) {
        return refuse(17);
    }
    if directory.ident_offset() < head || directory.ident_length().is_none() {
        return refuse(18);
    }
    Ok(())
}
