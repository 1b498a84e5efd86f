//! SHA-1.

use super::blocks;

const H0: [u32; 5] = [0x67452301, 0xefcdab89, 0x98badcfe, 0x10325476, 0xc3d2e1f0];

fn schedule(block: &[u8]) -> [u32; 80] {
    let mut w = [0u32; 80];
    for t in 0..16 {
        w[t] = u32::from_be_bytes(block[4 * t..4 * t + 4].try_into().unwrap());
    }
    for t in 16..80 {
        w[t] = (w[t - 3] ^ w[t - 8] ^ w[t - 14] ^ w[t - 16]).rotate_left(1);
    }
    w
}

/// The rounds of these words, which have one constant and one function.
fn rounds(value: &mut [u32; 5], w: &[u32], k: u32, f: impl Fn(u32, u32, u32) -> u32) {
    let [mut a, mut b, mut c, mut d, mut e] = *value;
    for word in w {
        let sum = a.rotate_left(5).wrapping_add(f(b, c, d)).wrapping_add(e);
        let t = sum.wrapping_add(k).wrapping_add(*word);
        e = d;
        d = c;
        c = b.rotate_left(30);
        b = a;
        a = t;
    }
    *value = [a, b, c, d, e];
}

fn compress(value: &mut [u32; 5], block: &[u8]) {
    let w = schedule(block);
    let mut last = *value;
    rounds(&mut last, &w[..20], 0x5a827999, |x, y, z| (x & y) ^ (!x & z));
    rounds(&mut last, &w[20..40], 0x6ed9eba1, |x, y, z| x ^ y ^ z);
    rounds(&mut last, &w[40..60], 0x8f1bbcdc, |x, y, z| (x & y) ^ (x & z) ^ (y & z));
    rounds(&mut last, &w[60..], 0xca62c1d6, |x, y, z| x ^ y ^ z);
    for (word, add) in value.iter_mut().zip(last) {
        *word = word.wrapping_add(add);
    }
}

pub fn value(message: &[u8]) -> [u32; 5] {
    blocks::hash::<_, 128>(message, H0, compress)
}
