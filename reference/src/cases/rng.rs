//! Random numbers that are the same everywhere.

/// An xorshift generator: equal seeds give equal cases everywhere.
pub struct Rng(u64);

impl Rng {
    /// A stream of its own for each case, so that one case can be made alone.
    pub fn new(seed: u64, stream: u64) -> Self {
        let mut mixed = seed ^ stream.wrapping_add(1).wrapping_mul(0x9e37_79b9_7f4a_7c15);
        mixed = (mixed ^ (mixed >> 30)).wrapping_mul(0xbf58_476d_1ce4_e5b9);
        mixed = (mixed ^ (mixed >> 27)).wrapping_mul(0x94d0_49bb_1331_11eb);
        // Xorshift stays at zero for ever.
        Rng((mixed ^ (mixed >> 31)).max(1))
    }

    /// A stream by its number that begins by where this one is, and does not move
    /// it.
    pub fn branch(&self, stream: u64) -> Self {
        Rng::new(self.0, stream)
    }

    fn next(&mut self) -> u64 {
        self.0 ^= self.0 << 13;
        self.0 ^= self.0 >> 7;
        self.0 ^= self.0 << 17;
        self.0
    }

    /// A number below `limit`, which is not 0.
    pub fn below(&mut self, limit: u32) -> u32 {
        ((self.next() >> 32) % u64::from(limit)) as u32
    }

    /// True about `times` in `of` times.
    pub fn chance(&mut self, times: u32, of: u32) -> bool {
        self.below(of) < times
    }

    pub fn pick<T: Clone>(&mut self, from: &[T]) -> T {
        from[self.index(from.len())].clone()
    }

    pub fn index(&mut self, length: usize) -> usize {
        self.below(length as u32) as usize
    }
}
