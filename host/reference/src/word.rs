//! Words of 32 and of 64 bits: what the hashes of FIPS 180-4 share over the word.

use std::mem::size_of;
use std::ops::{BitAnd, BitXor, Not, Shr};

/// §3.2: the operations on words. Sums are modulo 2 to the word's bits.
pub trait Word:
    Copy
    + Default
    + BitAnd<Output = Self>
    + BitXor<Output = Self>
    + Not<Output = Self>
    + Shr<u32, Output = Self>
{
    fn of_bytes(bytes: &[u8]) -> Self;
    fn plus(self, other: Self) -> Self;
    fn rotr(self, by: u32) -> Self;
    fn rotl(self, by: u32) -> Self;
}

macro_rules! word {
    ($word:ty) => {
        impl Word for $word {
            fn of_bytes(bytes: &[u8]) -> Self {
                <$word>::from_be_bytes(bytes.try_into().expect("a word's bytes"))
            }
            fn plus(self, other: Self) -> Self {
                self.wrapping_add(other)
            }
            fn rotr(self, by: u32) -> Self {
                self.rotate_right(by)
            }
            fn rotl(self, by: u32) -> Self {
                self.rotate_left(by)
            }
        }
    };
}

word!(u32);
word!(u64);

/// §4.1.
pub fn ch<W: Word>(x: W, y: W, z: W) -> W {
    (x & y) ^ (!x & z)
}

pub fn parity<W: Word>(x: W, y: W, z: W) -> W {
    x ^ y ^ z
}

pub fn maj<W: Word>(x: W, y: W, z: W) -> W {
    (x & y) ^ (x & z) ^ (y & z)
}

/// §5.2: a schedule's first 16 words, which are the block; the others are 0.
pub fn begun<W: Word, const ROUNDS: usize>(block: &[u8]) -> [W; ROUNDS] {
    let mut w = [W::default(); ROUNDS];
    let words = block.chunks_exact(size_of::<W>()).map(W::of_bytes);
    w.iter_mut().zip(words).for_each(|(word, given)| *word = given);
    w
}

/// Step 4 of every hash: the working words are added to the hash value.
pub fn summed<W: Word, const N: usize>(h: [W; N], v: [W; N]) -> [W; N] {
    std::array::from_fn(|i| h[i].plus(v[i]))
}
