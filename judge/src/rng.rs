//! Random numbers from a seed (splitmix64): the same seed gives the same run everywhere.

use std::cell::Cell;

pub struct Rng(Cell<u64>);

impl Rng {
    pub fn new(seed: u64) -> Rng {
        Rng(Cell::new(seed))
    }

    pub fn word(&self) -> u64 {
        let z = self.0.get().wrapping_add(0x9E37_79B9_7F4A_7C15);
        self.0.set(z);
        let z = (z ^ z >> 30).wrapping_mul(0xBF58_476D_1CE4_E5B9);
        let z = (z ^ z >> 27).wrapping_mul(0x94D0_49BB_1331_11EB);
        z ^ z >> 31
    }

    /// A number below `bound`, which is not 0.
    pub fn below(&self, bound: usize) -> usize {
        (self.word() % bound as u64) as usize
    }

    /// A number from `least` to `most`, both included.
    pub fn between(&self, least: usize, most: usize) -> usize {
        least + self.below(most - least + 1)
    }

    /// True once in `times`.
    pub fn once_in(&self, times: usize) -> bool {
        self.below(times) == 0
    }

    pub fn pick<T: Copy>(&self, from: &[T]) -> T {
        from[self.below(from.len())]
    }

    pub fn shuffle<T>(&self, items: &mut [T]) {
        for i in (1..items.len()).rev() {
            items.swap(i, self.below(i + 1));
        }
    }

    /// A word at or next to a limit of some field.
    pub fn limit(&self) -> u64 {
        const BITS: [u32; 15] = [0, 1, 2, 3, 4, 8, 10, 12, 13, 31, 32, 33, 48, 56, 63];
        let power = 1u64 << self.pick(&BITS);
        match self.below(8) {
            0 => 0,
            1 => u64::MAX,
            2 | 3 => power - 1,
            4 => power + 1,
            _ => power,
        }
    }
}
