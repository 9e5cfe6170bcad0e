//! Random numbers from a fixed seed, the same on every machine.

/// Marsaglia's xorshift of 64 bits.
pub struct Random(u64);

impl Random {
    /// A seed of 0 would give 0 for ever.
    pub fn new(seed: u64) -> Random {
        assert!(seed != 0);
        Random(seed)
    }

    fn next(&mut self) -> u64 {
        self.0 ^= self.0 << 13;
        self.0 ^= self.0 >> 7;
        self.0 ^= self.0 << 17;
        self.0
    }

    /// A number below a size of at most 8. The high bits are the better ones.
    pub fn below(&mut self, size: u8) -> u8 {
        ((self.next() >> 33) % u64::from(size)) as u8
    }
}
