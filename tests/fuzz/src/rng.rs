//! Random numbers. A case's numbers depend on the seed and the case's own number alone.
use oracle::rng::{STEP, SplitMix64, mix};

pub struct Rng(SplitMix64);

impl Rng {
    pub fn of_case(seed: u64, case: u64) -> Self {
        Rng(SplitMix64(mix(mix(seed.wrapping_add(STEP)) ^ case)))
    }
    pub fn next(&mut self) -> u64 {
        self.0.next_u64()
    }
    /// A number below `k`.
    pub fn n(&mut self, k: usize) -> usize {
        (((self.next() >> 32) * k.max(1) as u64) >> 32) as usize
    }
    /// True in `pct` of a hundred draws.
    pub fn p(&mut self, pct: usize) -> bool {
        self.n(100) < pct
    }
    pub fn pick<T: Copy>(&mut self, v: &[T]) -> T {
        v[self.n(v.len())]
    }
}
