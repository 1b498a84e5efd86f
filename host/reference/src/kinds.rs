//! Hash kinds by their number, which is the directory's hashType.

use crate::{sha1, sha256, sha384};

pub const CS_HASHTYPE_SHA1: u8 = 1;
pub const CS_HASHTYPE_SHA256: u8 = 2;
pub const CS_HASHTYPE_SHA256_TRUNCATED: u8 = 3;
pub const CS_HASHTYPE_SHA384: u8 = 4;

/// The numbers of all kinds.
pub const KINDS: [u8; 4] =
    [CS_HASHTYPE_SHA1, CS_HASHTYPE_SHA256, CS_HASHTYPE_SHA256_TRUNCATED, CS_HASHTYPE_SHA384];

/// The bytes of a kind's digest and of its slots, and the hash that they are the first bytes of.
type Kind = (u64, fn(&[u8]) -> Vec<u8>);

fn kind(number: u64) -> Option<Kind> {
    match u8::try_from(number).ok()? {
        CS_HASHTYPE_SHA1 => Some((20, |message| sha1::digest(message).to_vec())),
        CS_HASHTYPE_SHA256 => Some((32, |message| sha256::digest(message).to_vec())),
        CS_HASHTYPE_SHA256_TRUNCATED => Some((20, |message| sha256::digest(message).to_vec())),
        CS_HASHTYPE_SHA384 => Some((48, |message| sha384::digest(message).to_vec())),
        _ => None,
    }
}

/// The bytes of a slot; none for a number that no kind has.
pub fn width(number: u64) -> Option<u64> {
    kind(number).map(|(width, _)| width)
}

/// The digest of the whole message. Behind test 13 every number is a kind's.
pub fn digest(number: u64, message: &[u8]) -> Vec<u8> {
    let Some((width, hash)) = kind(number) else {
        panic!("no hash kind has the number {number}");
    };
    let mut digest = hash(message);
    digest.truncate(width as usize);
    digest
}
