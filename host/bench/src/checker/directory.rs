//! Tests 10 to 18, with 46 after 14 and 35 after 15.

use trewizlow::{MOST_CODE_LIMIT, MOST_PAGES};

use super::superblob::Index;
use super::{be32, be64, refuse, Tested};
use crate::plain::{Kind, MOST};

/// CS_ALLOWED_MACHO: the flags that a directory may hold.
const ALLOWED_FLAGS: u32 = 0x33F02;

/// A directory that passed, with the fields that later tests read.
pub struct Directory<'a> {
    bytes: &'a [u8],
    pub kind: Kind,
    hash_offset: usize,
    pub special_slots: usize,
    pub code_slots: usize,
    pub code_limit: usize,
    pub page_size: usize,
}

fn head_size(version: u32) -> Option<usize> {
    match version {
        0x20001..=0x200FF => Some(44),
        0x20100..=0x201FF => Some(48),
        0x20200..=0x202FF => Some(52),
        0x20300..=0x203FF => Some(64),
        0x20400..=0x204FF => Some(88),
        0x20500..=0x205FF => Some(96),
        0x20600 => Some(108),
        _ => None,
    }
}

/// codeLimit64 where the version has it and it is not 0, else codeLimit.
fn code_limit(bytes: &[u8]) -> usize {
    let large = if be32(bytes, 8) < 0x20300 { 0 } else { be64(bytes, 56) };
    if large == 0 {
        be32(bytes, 32) as usize
    } else {
        large as usize
    }
}

/// The hash kind of hashType, where hashSize is that kind's.
fn kind(bytes: &[u8]) -> Option<Kind> {
    Kind::of(bytes[37]).filter(|kind| kind.width() == usize::from(bytes[36]))
}

/// Tests 10 to 15 and 35; the blob, its head's size and its hash kind.
fn head<'a>(index: &Index<'a>) -> Tested<(&'a [u8], usize, Kind)> {
    let Some(bytes) = index.blob(0) else {
        return refuse(10);
    };
    if bytes.len() < 12 {
        return refuse(12);
    }
    let version = be32(bytes, 8);
    let Some(head) = head_size(version) else {
        return refuse(11);
    };
    if bytes.len() < head {
        return refuse(12);
    }
    let Some(kind) = kind(bytes) else {
        return refuse(13);
    };
    if !matches!(bytes[39], 0 | 12 | 14) {
        return refuse(14);
    }
    if be32(bytes, 12) & !ALLOWED_FLAGS != 0 {
        return refuse(46);
    }
    if code_limit(bytes) > MOST_CODE_LIMIT {
        return refuse(15);
    }
    if version >= 0x20100 && bytes[44..48] != [0; 4] {
        return refuse(35);
    }
    Ok((bytes, head, kind))
}

pub fn read<'a>(index: &Index<'a>) -> Tested<Directory<'a>> {
    let (bytes, head, kind) = head(index)?;
    let code_limit = code_limit(bytes);
    let directory = Directory {
        bytes,
        kind,
        hash_offset: be32(bytes, 16) as usize,
        special_slots: be32(bytes, 24) as usize,
        code_slots: be32(bytes, 28) as usize,
        code_limit,
        page_size: if bytes[39] == 0 { code_limit } else { 1 << bytes[39] },
    };
    let pages = if code_limit == 0 { 0 } else { code_limit.div_ceil(directory.page_size) };
    if directory.code_slots != pages || pages > MOST_PAGES || directory.special_slots > 11 {
        return refuse(16);
    }
    if directory.slot_outside(head) {
        return refuse(17);
    }
    let ident_offset = be32(bytes, 20) as usize;
    let ends = bytes.get(ident_offset..).is_some_and(|rest| rest.contains(&0));
    if ident_offset < head || !ends {
        return refuse(18);
    }
    Ok(directory)
}

impl<'a> Directory<'a> {
    /// Test 17. Without slots nothing reaches anywhere.
    fn slot_outside(&self, head: usize) -> bool {
        if self.special_slots + self.code_slots == 0 {
            return false;
        }
        let width = self.kind.width();
        self.hash_offset < head + width * self.special_slots
            || self.hash_offset + width * self.code_slots > self.bytes.len()
    }

    pub fn code_slots_from(&self, first: usize) -> impl Iterator<Item = &'a [u8]> {
        let width = self.kind.width();
        let start = self.hash_offset + width * first;
        let end = self.hash_offset + width * self.code_slots;
        self.bytes[start..end].chunks_exact(width)
    }

    /// Special slot k, from 1; none where it is empty.
    pub fn special_slot(&self, k: usize) -> Option<&'a [u8]> {
        if k > self.special_slots {
            return None;
        }
        let width = self.kind.width();
        let start = self.hash_offset - width * k;
        let slot = &self.bytes[start..start + width];
        slot.iter().any(|&byte| byte != 0).then_some(slot)
    }

    pub fn cdhash(&self) -> [u8; 20] {
        let mut buffer = [0; MOST];
        self.kind.digest(self.bytes, &mut buffer)[..20].try_into().unwrap()
    }
}
