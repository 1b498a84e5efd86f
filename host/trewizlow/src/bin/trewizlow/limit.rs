//! The two fields of a code directory of which one is the code limit.

use trewizlow::MOST_CODE_LIMIT;

use crate::found::{field64, is_since};

/// The first version that has codeLimit64.
const WITH_CODE_LIMIT_64: u32 = 0x20300;

/// A codeLimit64 that is not 0; none in a directory of another version, whatever it holds there.
fn code_limit_64(signature: &[u8]) -> Option<u64> {
    field64(signature, 56).filter(|limit| *limit != 0 && is_since(signature, WITH_CODE_LIMIT_64))
}

/// The name of the field that is the code limit.
pub fn name(signature: &[u8]) -> &'static str {
    match code_limit_64(signature) {
        Some(_) => "codeLimit64",
        None => "codeLimit",
    }
}

/// A codeLimit64 that is too large.
pub fn too_large(signature: &[u8]) -> Option<u64> {
    code_limit_64(signature).filter(|limit| *limit > MOST_CODE_LIMIT as u64)
}

/// For somebody who asks what refusal 15 means.
pub fn note(signature: &[u8]) -> Option<String> {
    let limit = too_large(signature)?;
    Some(format!("the directory's codeLimit64, {limit}, is above {MOST_CODE_LIMIT} (15)"))
}
