//! Numbers that look random and are the same in every run: xorshift64*.

pub struct Random(u64);

impl Random {
    /// The seed must not be 0: 0 is the one state that the generator never leaves.
    pub fn new(seed: u64) -> Random {
        assert!(seed != 0);
        Random(seed)
    }

    pub fn number(&mut self) -> u64 {
        self.0 ^= self.0 >> 12;
        self.0 ^= self.0 << 25;
        self.0 ^= self.0 >> 27;
        self.0.wrapping_mul(0x2545_F491_4F6C_DD1D)
    }

    /// A number below `bound`, taken from the high half, whose bits are the better ones.
    pub fn below(&mut self, bound: u64) -> u64 {
        (self.number() >> 32) % bound
    }

    pub fn byte(&mut self) -> u8 {
        self.below(256) as u8
    }

    pub fn bytes(&mut self, count: usize) -> Vec<u8> {
        (0..count).map(|_| self.byte()).collect()
    }

    pub fn pick<'a, T>(&mut self, from: &'a [T]) -> &'a T {
        &from[self.below(from.len() as u64) as usize]
    }
}
