//! Numbers for the generators, from fixed seeds.

use std::env;
use std::ops::Range;

use crate::sets::{Set, members, only};

/// Whether a long run is asked for, by the environment variable LONG=1.
pub fn is_long() -> bool {
    env::var("LONG").is_ok_and(|value| value == "1")
}

/// Seeds from 0 on: `count` of them, or twenty times as many in a long run.
pub fn seeds(count: u64) -> Range<u64> {
    let seeds = 0..if is_long() { 20 * count } else { count };
    println!("seeds {} to {}", seeds.start, seeds.end - 1);
    seeds
}

/// A small generator of numbers (the method known as SplitMix64).
pub struct Random {
    state: u64,
}

impl Random {
    pub fn new(seed: u64) -> Random {
        Random { state: seed }
    }

    /// Any word.
    pub fn word(&mut self) -> u64 {
        self.state = self.state.wrapping_add(0x9e37_79b9_7f4a_7c15);
        let mut word = self.state;
        word = (word ^ (word >> 30)).wrapping_mul(0xbf58_476d_1ce4_e5b9);
        word = (word ^ (word >> 27)).wrapping_mul(0x94d0_49bb_1331_11eb);
        word ^ (word >> 31)
    }

    /// A number below `end`, which is not 0.
    pub fn below(&mut self, end: usize) -> usize {
        (self.word() % end as u64) as usize
    }

    /// A number from `low` to `high`, both included.
    pub fn between(&mut self, low: usize, high: usize) -> usize {
        low + self.below(high - low + 1)
    }

    /// The same for a byte.
    pub fn byte(&mut self, low: u8, high: u8) -> u8 {
        self.between(low.into(), high.into()) as u8
    }

    /// True in `percent` of 100 cases.
    pub fn chance(&mut self, percent: usize) -> bool {
        self.below(100) < percent
    }

    /// A part of `set`, each member with the same chance.
    pub fn part_of(&mut self, set: Set, percent: usize) -> Set {
        members(set)
            .filter(|_| self.chance(percent))
            .fold(0, |part, n| part | only(n))
    }

    /// One of the elements.
    pub fn pick<T: Copy>(&mut self, from: &[T]) -> T {
        from[self.below(from.len())]
    }

    /// Puts the elements into another order.
    pub fn shuffle<T>(&mut self, elements: &mut [T]) {
        for end in (1..elements.len()).rev() {
            elements.swap(end, self.below(end + 1));
        }
    }
}
