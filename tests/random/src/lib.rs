//! Numbers that look random and are the same at each run, and format texts made by them.

#![forbid(unsafe_code)]

mod parts;

pub use parts::{pieced, PARTS};
use std::cell::Cell;

/// The generator splitmix64.
pub struct Random(Cell<u64>);

impl Random {
    pub fn new(seed: u64) -> Random {
        Random(Cell::new(seed))
    }

    pub fn word(&self) -> u64 {
        let state = self.0.get().wrapping_add(0x9e37_79b9_7f4a_7c15);
        self.0.set(state);
        let z = (state ^ (state >> 30)).wrapping_mul(0xbf58_476d_1ce4_e5b9);
        let z = (z ^ (z >> 27)).wrapping_mul(0x94d0_49bb_1331_11eb);
        z ^ (z >> 31)
    }

    /// A number below `limit`, which is at least 1.
    pub fn below(&self, limit: usize) -> usize {
        (self.word() % limit as u64) as usize
    }

    pub fn byte(&self) -> u8 {
        self.word() as u8
    }

    /// True once in `times`.
    pub fn once_in(&self, times: usize) -> bool {
        self.below(times) == 0
    }

    pub fn pick<T: Copy>(&self, from: &[T]) -> T {
        from[self.below(from.len())]
    }

    /// A number of each magnitude, from no bits to 64, equally often.
    pub fn magnitude(&self) -> u64 {
        let bits = self.below(65) as u32;
        let word = self.word();
        if bits == 0 {
            0
        } else {
            word >> (64 - bits) | 1 << (bits - 1)
        }
    }
}
