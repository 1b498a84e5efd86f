//! Damage to a good case, at four levels: the plan (the cache still lists the directory),
//! the signature's layout, the cache's layout, and bytes.

pub mod bytes;
pub mod cache;
pub mod plan;
pub mod signature;

use reference::random::Random;

/// A number near another: a few up or down, or one that borders on something.
fn near(number: u32, random: &mut Random) -> u32 {
    let step = *random.pick(&[1, 1, 2, 8, 20, 32, 33, 48, 64, 256, 4096]);
    match random.below(5) {
        0 => *random.pick(&[0, 1, 0x7FFFFFFF, 0x80000000, 0xFFFFFFF7, 0xFFFFFFF8, 0xFFFFFFFF]),
        1 | 2 => number.wrapping_add(step),
        _ => number.wrapping_sub(step),
    }
}

/// An index below a length that is not 0.
fn index(length: usize, random: &mut Random) -> usize {
    random.below(length as u64) as usize
}

/// Once in so many times: for damage that needs megabytes.
fn rarely(times: u64, random: &mut Random) -> bool {
    random.below(times) == 0
}
