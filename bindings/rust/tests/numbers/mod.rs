//! A small generator of numbers, so that the tests need nothing else.

pub struct Numbers(pub u64);

impl Numbers {
    pub fn below(&mut self, n: u64) -> u64 {
        self.0 ^= self.0 << 13;
        self.0 ^= self.0 >> 7;
        self.0 ^= self.0 << 17;
        self.0 % n
    }

    /// Fewer than n units out of a pool.
    pub fn units(&mut self, pool: &[u16], n: u64) -> Vec<u16> {
        (0..self.below(n)).map(|_| pool[self.below(pool.len() as u64) as usize]).collect()
    }
}
