//! A small pseudo-random generator (SplitMix64), so that a seed alone repeats a case.

use std::ops::RangeInclusive;

pub struct Rng(u64);

impl Rng {
    pub fn new(seed: u64) -> Self {
        Self(seed)
    }

    /// The next 64 bits.
    pub fn bits(&mut self) -> u64 {
        self.0 = self.0.wrapping_add(0x9e37_79b9_7f4a_7c15);
        let mut z = self.0;
        z = (z ^ (z >> 30)).wrapping_mul(0xbf58_476d_1ce4_e5b9);
        z = (z ^ (z >> 27)).wrapping_mul(0x94d0_49bb_1331_11eb);
        z ^ (z >> 31)
    }

    pub fn within(&mut self, range: RangeInclusive<u32>) -> u32 {
        let count = u64::from(range.end() - range.start()) + 1;
        range.start() + (self.bits() % count) as u32
    }

    pub fn below(&mut self, count: usize) -> usize {
        (self.bits() % count as u64) as usize
    }

    pub fn pick<T: Copy>(&mut self, choices: &[T]) -> T {
        choices[self.below(choices.len())]
    }

    /// True once in `times` calls.
    pub fn once_in(&mut self, times: usize) -> bool {
        self.below(times) == 0
    }

    pub fn shuffle<T>(&mut self, list: &mut [T]) {
        for last in (1..list.len()).rev() {
            list.swap(last, self.below(last + 1));
        }
    }

    pub fn noise<T: Noise>(&mut self, length: usize) -> Vec<T> {
        (0..length).map(|_| T::cut(self.bits())).collect()
    }
}

/// Numbers that a lent slice can be full of.
pub trait Noise: Copy {
    fn cut(bits: u64) -> Self;
}

impl Noise for u8 {
    fn cut(bits: u64) -> Self {
        bits as u8
    }
}

impl Noise for u32 {
    fn cut(bits: u64) -> Self {
        bits as u32
    }
}
