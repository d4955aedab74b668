//! Numbers from a seed, the same on every machine (SplitMix64).

use std::ops::RangeInclusive;

pub struct Random(u64);

impl Random {
    pub fn new(seed: u64) -> Self {
        Random(seed)
    }

    fn number(&mut self) -> u64 {
        self.0 = self.0.wrapping_add(0x9e37_79b9_7f4a_7c15);
        let x = (self.0 ^ (self.0 >> 30)).wrapping_mul(0xbf58_476d_1ce4_e5b9);
        let x = (x ^ (x >> 27)).wrapping_mul(0x94d0_49bb_1331_11eb);
        x ^ (x >> 31)
    }

    /// Any index of a slice of this length, which is not 0.
    pub fn index(&mut self, length: usize) -> usize {
        (self.number() % length as u64) as usize
    }

    /// Any number of the range, which is not empty.
    pub fn within(&mut self, range: RangeInclusive<u32>) -> u32 {
        range.start() + self.index((range.end() - range.start() + 1) as usize) as u32
    }

    /// A number of the range by its logarithm, so that each doubling is as likely as the next.
    pub fn log_uniform(&mut self, range: RangeInclusive<u32>) -> u32 {
        let (low, high) = (f64::from(*range.start()), f64::from(*range.end()));
        let share = (self.number() >> 11) as f64 / (1u64 << 53) as f64;
        (low * (high / low).powf(share)).round() as u32
    }

    pub fn shuffle<T>(&mut self, items: &mut [T]) {
        for last in (1..items.len()).rev() {
            items.swap(last, self.index(last + 1));
        }
    }
}
