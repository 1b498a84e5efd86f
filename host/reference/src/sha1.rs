//! SHA-1 of FIPS 180-4, with its names.

use crate::message::chained;
use crate::word::{begun, ch, maj, parity, summed, Word};

const BLOCK: usize = 64;

/// FIPS 180-4 §5.3.1.
const H0: [u32; 5] = [0x67452301, 0xefcdab89, 0x98badcfe, 0x10325476, 0xc3d2e1f0];

/// §4.1.1 and §4.2.1: the function and the constant of round t.
fn round(t: usize) -> (fn(u32, u32, u32) -> u32, u32) {
    match t {
        0..=19 => (ch, 0x5a827999),
        20..=39 => (parity, 0x6ed9eba1),
        40..=59 => (maj, 0x8f1bbcdc),
        _ => (parity, 0xca62c1d6),
    }
}

/// §6.1.2, step 1.
fn schedule(block: &[u8]) -> [u32; 80] {
    let mut w: [u32; 80] = begun(block);
    for t in 16..80 {
        w[t] = (w[t - 3] ^ w[t - 8] ^ w[t - 14] ^ w[t - 16]).rotl(1);
    }
    w
}

/// §6.1.2, steps 2 to 4.
fn compress(h: [u32; 5], block: &[u8]) -> [u32; 5] {
    let mut v = h;
    for (t, w) in schedule(block).into_iter().enumerate() {
        let [a, b, c, d, e] = v;
        let (f, k) = round(t);
        let sum = a.rotl(5).plus(f(b, c, d)).plus(e).plus(k).plus(w);
        v = [sum, a, b.rotl(30), c, d];
    }
    summed(h, v)
}

/// The digest of the whole message.
pub fn digest(message: &[u8]) -> [u8; 20] {
    let h = chained(message, BLOCK, H0, compress);
    std::array::from_fn(|i| h[i / 4].to_be_bytes()[i % 4])
}
