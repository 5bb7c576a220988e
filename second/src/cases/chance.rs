//! Numbers by chance from a fixed seed (splitmix64), and the sizes of cases.

use crate::vector::MOST_LEAVES;

pub struct Chance {
    state: u64,
}

impl Chance {
    pub fn from_seed(seed: u64) -> Chance {
        Chance { state: seed }
    }

    fn next(&mut self) -> u64 {
        self.state = self.state.wrapping_add(0x9E37_79B9_7F4A_7C15);
        let mut z = self.state;
        z = (z ^ (z >> 30)).wrapping_mul(0xBF58_476D_1CE4_E5B9);
        z = (z ^ (z >> 27)).wrapping_mul(0x94D0_49BB_1331_11EB);
        z ^ (z >> 31)
    }

    /// A number below `end`, which is not 0.
    pub fn below(&mut self, end: usize) -> usize {
        (self.next() % end as u64) as usize
    }

    /// A number from `first` to `last`, both included.
    pub fn between(&mut self, first: usize, last: usize) -> usize {
        first + self.below(last - first + 1)
    }

    pub fn one_in(&mut self, count: usize) -> bool {
        self.below(count) == 0
    }

    pub fn one_of<T: Copy>(&mut self, choices: &[T]) -> T {
        choices[self.below(choices.len())]
    }

    pub fn byte(&mut self) -> u8 {
        self.below(256) as u8
    }

    pub fn word(&mut self) -> u16 {
        self.below(65536) as u16
    }

    /// A leaf count. Most are small, and the ends have a fair share.
    pub fn size(&mut self) -> usize {
        match self.below(100) {
            0..=6 => 1,
            7..=13 => 2,
            14..=20 => 3,
            21..=70 => self.between(4, 16),
            71..=89 => self.between(17, 100),
            90..=94 => self.between(101, MOST_LEAVES - 2),
            95..=96 => MOST_LEAVES - 1,
            _ => MOST_LEAVES,
        }
    }

    /// A leaf count from `least` on.
    pub fn size_from(&mut self, least: usize) -> usize {
        self.size().max(least)
    }

    /// An index below `end`; the first and the last have a fair share.
    pub fn index(&mut self, end: usize) -> usize {
        match self.below(5) {
            0 => 0,
            1 => end - 1,
            _ => self.below(end),
        }
    }
}
