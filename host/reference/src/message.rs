//! Padding and blocks of FIPS 180-4, over the block's size.

/// §5.1: the bytes behind the last whole block, a one bit, zeros, and the message's length in
/// bits over an eighth of a block. The blocks before are not copied: a message may have gigabytes.
fn padded_end(message: &[u8], block: usize) -> Vec<u8> {
    let length = (message.len() as u128 * 8).to_be_bytes();
    let length = &length[length.len() - block / 8..];
    let mut padded = message.chunks_exact(block).remainder().to_vec();
    padded.push(0x80);
    while padded.len() % block != block - length.len() {
        padded.push(0);
    }
    padded.extend_from_slice(length);
    padded
}

/// The hash value after every block of the padded message, from `first` on.
pub fn chained<H>(message: &[u8], block: usize, first: H, step: impl Fn(H, &[u8]) -> H) -> H {
    let end = padded_end(message, block);
    message.chunks_exact(block).chain(end.chunks_exact(block)).fold(first, step)
}
