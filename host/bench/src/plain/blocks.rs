//! Blocks and padding, which the hashes share but for a block's bytes.

/// The bytes behind the last whole block, the bit 1, zeros, and the message's length in bits in
/// the last eighth of a block; and how many of these bytes there are: one block or two.
fn padded<const TWO_BLOCKS: usize>(rest: &[u8], length: usize) -> ([u8; TWO_BLOCKS], usize) {
    let block = TWO_BLOCKS / 2;
    let mut last = [0u8; TWO_BLOCKS];
    last[..rest.len()].copy_from_slice(rest);
    last[rest.len()] = 0x80;
    let end = if rest.len() < block - block / 8 { block } else { TWO_BLOCKS };
    last[end - 8..end].copy_from_slice(&(length as u64 * 8).to_be_bytes());
    (last, end)
}

/// Hashes whole blocks where they lie; only the last one or two are copied to be padded.
pub fn hash<Value, const TWO_BLOCKS: usize>(
    message: &[u8],
    mut value: Value,
    compress: impl Fn(&mut Value, &[u8]),
) -> Value {
    let mut blocks = message.chunks_exact(TWO_BLOCKS / 2);
    for block in &mut blocks {
        compress(&mut value, block);
    }
    let (last, end) = padded::<TWO_BLOCKS>(blocks.remainder(), message.len());
    for block in last[..end].chunks_exact(TWO_BLOCKS / 2) {
        compress(&mut value, block);
    }
    value
}
