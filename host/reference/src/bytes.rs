//! Numbers in bytes. A 32-bit number is handed back as u64, so that no sum of a few
//! of them can wrap. Reading outside the bytes panics: a test was then left out.

fn byte(bytes: &[u8], at: u64) -> u64 {
    u64::from(bytes[at as usize])
}

pub fn u8_at(bytes: &[u8], at: u64) -> u64 {
    byte(bytes, at)
}

/// Four bytes, highest first.
pub fn be32(bytes: &[u8], at: u64) -> u64 {
    (0..4).fold(0, |number, i| number * 256 + byte(bytes, at + i))
}

/// Eight bytes, highest first.
pub fn be64(bytes: &[u8], at: u64) -> u64 {
    (be32(bytes, at) << 32) + be32(bytes, at + 4)
}

/// Four bytes, lowest first.
pub fn le32(bytes: &[u8], at: u64) -> u64 {
    (0..4).rev().fold(0, |number, i| number * 256 + byte(bytes, at + i))
}

/// The part of `bytes` from `start` on, `length` bytes long.
pub fn part(bytes: &[u8], start: u64, length: u64) -> &[u8] {
    &bytes[start as usize..(start + length) as usize]
}
