//! Fields of the directory that the lookup finds: the library hands out none of one that it
//! refuses, and a note has to name them.

use trewizlow::find;

/// The slot type of the directory that is checked.
const CODE_DIRECTORY: u32 = 0;

/// The bytes from here on of the signature's directory; none where the directory is not found or
/// ends before.
pub fn bytes<const N: usize>(signature: &[u8], at: usize) -> Option<[u8; N]> {
    let directory = find(signature, CODE_DIRECTORY).part(signature);
    directory.get(at..at + N)?.try_into().ok()
}

/// The first version that is known, and the last.
pub const FIRST_VERSION: u32 = 0x20001;
const LAST_VERSION: u32 = 0x20600;

/// Whether the directory's version is known and this one or later.
pub fn is_since(signature: &[u8], version: u32) -> bool {
    field(signature, 8).is_some_and(|found| (version..=LAST_VERSION).contains(&found))
}

/// The big-endian number of 32 bits at this byte of the directory.
pub fn field(signature: &[u8], at: usize) -> Option<u32> {
    bytes(signature, at).map(u32::from_be_bytes)
}

/// The big-endian number of 64 bits at this byte of the directory.
pub fn field64(signature: &[u8], at: usize) -> Option<u64> {
    bytes(signature, at).map(u64::from_be_bytes)
}
