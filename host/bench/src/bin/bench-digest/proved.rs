//! The proved hash, from the archive that `tools/staticlib digest_c` writes.

/// The most bytes that a digest has.
pub const MOST: usize = 48;

extern "C" {
    fn trewizlow_digest(kind: u32, message: *const u8, message_len: usize, out: *mut u8);
}

/// Writes the digest by a kind's number (1 SHA-1, 2 SHA-256, 3 SHA-256 cut to 20 bytes,
/// 4 SHA-384), and zeros behind it.
pub fn digest(kind: u32, message: &[u8], out: &mut [u8; MOST]) {
    // SAFETY: both buffers are valid for their lengths and do not overlap, since one is
    // borrowed mutably.
    unsafe { trewizlow_digest(kind, message.as_ptr(), message.len(), out.as_mut_ptr()) }
}
