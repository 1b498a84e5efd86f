//! Buffers to hash.

/// Bytes that look random (xorshift64*, a fixed seed), so that every page is written to
/// and no page is like another.
pub fn filled(length: usize) -> Vec<u8> {
    let mut state = 0x6265_6E63_6800_0001u64;
    let mut buffer = vec![0u8; length];
    for word in buffer.chunks_exact_mut(8) {
        state ^= state >> 12;
        state ^= state << 25;
        state ^= state >> 27;
        word.copy_from_slice(&state.wrapping_mul(0x2545_F491_4F6C_DD1D).to_le_bytes());
    }
    buffer
}
