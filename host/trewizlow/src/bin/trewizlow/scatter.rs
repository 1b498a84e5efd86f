//! The scatterOffset of a code directory.

use crate::found::{field, is_since};

/// The first version that has it.
const WITH_SCATTER: u32 = 0x20100;

/// One that is not 0; none in a directory of another version, whatever it holds there.
pub fn offset(signature: &[u8]) -> Option<u32> {
    field(signature, 44).filter(|offset| *offset != 0 && is_since(signature, WITH_SCATTER))
}

/// For somebody who asks what refusal 35 means.
pub fn note(signature: &[u8]) -> Option<String> {
    let offset = offset(signature)?;
    Some(format!(
        "the directory's scatterOffset, {offset:#x}, is not 0 (35): its code slots do not \
         cover the image from byte 0 upward"
    ))
}
