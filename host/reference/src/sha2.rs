//! The block step that SHA-256 and SHA-384 share, over the word, with the names of FIPS 180-4.

use crate::word::{begun, ch, maj, summed, Word};

/// By how much the functions of §4.1.2 and §4.1.3 rotate; the small ones shift by the last.
pub trait Sigma: Word {
    const BIG0: [u32; 3];
    const BIG1: [u32; 3];
    const SMALL0: [u32; 3];
    const SMALL1: [u32; 3];
}

impl Sigma for u32 {
    const BIG0: [u32; 3] = [2, 13, 22];
    const BIG1: [u32; 3] = [6, 11, 25];
    const SMALL0: [u32; 3] = [7, 18, 3];
    const SMALL1: [u32; 3] = [17, 19, 10];
}

impl Sigma for u64 {
    const BIG0: [u32; 3] = [28, 34, 39];
    const BIG1: [u32; 3] = [14, 18, 41];
    const SMALL0: [u32; 3] = [1, 8, 7];
    const SMALL1: [u32; 3] = [19, 61, 6];
}

fn big_sigma<W: Word>(x: W, [a, b, c]: [u32; 3]) -> W {
    x.rotr(a) ^ x.rotr(b) ^ x.rotr(c)
}

fn small_sigma<W: Word>(x: W, [a, b, c]: [u32; 3]) -> W {
    x.rotr(a) ^ x.rotr(b) ^ (x >> c)
}

/// §6.2.2 and §6.4.2, step 1.
fn schedule<W: Sigma, const ROUNDS: usize>(block: &[u8]) -> [W; ROUNDS] {
    let mut w: [W; ROUNDS] = begun(block);
    for t in 16..ROUNDS {
        w[t] = small_sigma(w[t - 2], W::SMALL1)
            .plus(w[t - 7])
            .plus(small_sigma(w[t - 15], W::SMALL0))
            .plus(w[t - 16]);
    }
    w
}

/// The same, steps 2 to 4.
pub fn compress<W: Sigma, const ROUNDS: usize>(
    k: &[W; ROUNDS],
    hash: [W; 8],
    block: &[u8],
) -> [W; 8] {
    let mut v = hash;
    for (k, w) in k.iter().zip(schedule::<W, ROUNDS>(block)) {
        let [a, b, c, d, e, f, g, h] = v;
        let t1 = h.plus(big_sigma(e, W::BIG1)).plus(ch(e, f, g)).plus(*k).plus(w);
        let t2 = big_sigma(a, W::BIG0).plus(maj(a, b, c));
        v = [t1.plus(t2), a, b, c, d.plus(t1), e, f, g];
    }
    summed(hash, v)
}
