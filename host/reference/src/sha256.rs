//! SHA-256 of FIPS 180-4, with its names.

use crate::message::chained;
use crate::sha2::compress;

const BLOCK: usize = 64;

/// FIPS 180-4 §4.2.2.
const K: [u32; 64] = [
    0x428a2f98, 0x71374491, 0xb5c0fbcf, 0xe9b5dba5, 0x3956c25b, 0x59f111f1, 0x923f82a4, 0xab1c5ed5,
    0xd807aa98, 0x12835b01, 0x243185be, 0x550c7dc3, 0x72be5d74, 0x80deb1fe, 0x9bdc06a7, 0xc19bf174,
    0xe49b69c1, 0xefbe4786, 0x0fc19dc6, 0x240ca1cc, 0x2de92c6f, 0x4a7484aa, 0x5cb0a9dc, 0x76f988da,
    0x983e5152, 0xa831c66d, 0xb00327c8, 0xbf597fc7, 0xc6e00bf3, 0xd5a79147, 0x06ca6351, 0x14292967,
    0x27b70a85, 0x2e1b2138, 0x4d2c6dfc, 0x53380d13, 0x650a7354, 0x766a0abb, 0x81c2c92e, 0x92722c85,
    0xa2bfe8a1, 0xa81a664b, 0xc24b8b70, 0xc76c51a3, 0xd192e819, 0xd6990624, 0xf40e3585, 0x106aa070,
    0x19a4c116, 0x1e376c08, 0x2748774c, 0x34b0bcb5, 0x391c0cb3, 0x4ed8aa4a, 0x5b9cca4f, 0x682e6ff3,
    0x748f82ee, 0x78a5636f, 0x84c87814, 0x8cc70208, 0x90befffa, 0xa4506ceb, 0xbef9a3f7, 0xc67178f2,
];

/// FIPS 180-4 §5.3.3.
const H0: [u32; 8] = [
    0x6a09e667, 0xbb67ae85, 0x3c6ef372, 0xa54ff53a, 0x510e527f, 0x9b05688c, 0x1f83d9ab, 0x5be0cd19,
];

/// The digest of the whole message.
pub fn digest(message: &[u8]) -> [u8; 32] {
    let h = chained(message, BLOCK, H0, |h, block| compress(&K, h, block));
    std::array::from_fn(|i| h[i / 4].to_be_bytes()[i % 4])
}

#[cfg(test)]
mod tests {
    use super::*;
    use crate::roots::{fraction, primes};

    /// §4.2.2: the first 32 bits of the fractional parts of the cube roots of primes.
    #[test]
    fn round_constants_are_cube_roots() {
        for (k, p) in K.iter().zip(primes().take(64)) {
            assert_eq!(u64::from(*k), fraction(p, 3, 32));
        }
    }

    /// §5.3.3: the same of square roots.
    #[test]
    fn first_value_is_square_roots() {
        for (h, p) in H0.iter().zip(primes().take(8)) {
            assert_eq!(u64::from(*h), fraction(p, 2, 32));
        }
    }
}
