//! Roots of primes, which the constants of SHA-256 and SHA-384 are taken from.

/// Digits to the base 2^32, the lowest first: a number below 2^256.
type Number = [u64; 8];

const DIGIT: u32 = 32;

pub fn primes() -> impl Iterator<Item = u64> {
    (2u64..).filter(|n| (2..*n).all(|d| n % d != 0))
}

/// The digits of a number below 2^96.
fn number(value: u128) -> Number {
    std::array::from_fn(|i| if i < 3 { (value >> (DIGIT * i as u32)) as u32 as u64 } else { 0 })
}

/// The product modulo 2^256. A digit's sum is at most 2^64 - 1.
fn product(a: &Number, b: &Number) -> Number {
    let mut product = [0; 8];
    for (i, j) in (0..8).flat_map(|i| (0..8 - i).map(move |j| (i, j))) {
        let mut carry = a[i] * b[j];
        for digit in &mut product[i + j..] {
            carry += *digit;
            *digit = carry & 0xFFFF_FFFF;
            carry >>= DIGIT;
        }
    }
    product
}

fn at_most(a: &Number, b: &Number) -> bool {
    a.iter().rev().le(b.iter().rev())
}

/// The first `bits` bits, 32 or 64, of the fractional part of the square root or the cube root
/// (`power` 2 or 3) of a prime below 2^12: the largest number whose power is at most the prime
/// times 2^(bits * power), without its whole part.
pub fn fraction(prime: u64, power: u32, bits: u32) -> u64 {
    let mut bound = [0; 8];
    bound[(bits * power / DIGIT) as usize] = prime;
    let mut root = 0u128;
    for bit in (0..bits + 6).rev() {
        let tried = number(root + (1 << bit));
        let raised = (1..power).fold(tried, |raised, _| product(&raised, &tried));
        if at_most(&raised, &bound) {
            root += 1 << bit;
        }
    }
    (root & ((1 << bits) - 1)) as u64
}
