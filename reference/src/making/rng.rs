//! The makers' random numbers: splitmix64. Not the draws of document 01.

use crate::sets;

pub struct Rng(u64);

impl Rng {
    pub fn new(seed: u64) -> Rng {
        Rng(seed)
    }

    pub fn value(&mut self) -> u64 {
        self.0 = self.0.wrapping_add(0x9e37_79b9_7f4a_7c15);
        let mut z = self.0;
        z = (z ^ z >> 30).wrapping_mul(0xbf58_476d_1ce4_e5b9);
        z = (z ^ z >> 27).wrapping_mul(0x94d0_49bb_1331_11eb);
        z ^ z >> 31
    }

    /// A number below `n`, which is not 0.
    pub fn below(&mut self, n: usize) -> usize {
        (self.value() >> 16) as usize % n
    }

    /// A number from `low` to `high`, both among them.
    pub fn within(&mut self, low: usize, high: usize) -> usize {
        low + self.below(high - low + 1)
    }

    /// True once in `n` times.
    pub fn one_in(&mut self, n: usize) -> bool {
        self.below(n) == 0
    }

    pub fn pick<T: Copy>(&mut self, from: &[T]) -> T {
        from[self.below(from.len())]
    }

    pub fn shuffle<T>(&mut self, items: &mut [T]) {
        for i in (1..items.len()).rev() {
            items.swap(i, self.below(i + 1));
        }
    }

    /// A set of sites below `sites`, 1 to 64; not empty.
    pub fn target_set(&mut self, sites: usize) -> u64 {
        let all = sets::all(sites);
        let some = match self.below(4) {
            0 => 1 << self.below(sites),
            1 => 1 << self.below(sites) | 1 << self.below(sites),
            2 => all,
            _ => self.value() & all,
        };
        if some == 0 {
            all
        } else {
            some
        }
    }
}
