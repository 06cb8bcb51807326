//! A small generator of numbers that look random and are the same on each
//! machine: xorshift64*.

use std::ops::RangeInclusive;

/// The generator's state, which is never 0.
#[derive(Clone, Debug)]
pub struct Random {
    state: u64,
}

impl Random {
    /// The seed that is taken unless one is given.
    pub const SEED: u64 = 88_172_645_463_325_252;

    /// A generator that starts from this seed. 0 would stay 0 for ever and is
    /// replaced by [`Random::SEED`].
    pub fn new(seed: u64) -> Random {
        let state = if seed == 0 { Random::SEED } else { seed };
        Random { state }
    }

    /// The next number.
    pub fn number(&mut self) -> u64 {
        self.state ^= self.state >> 12;
        self.state ^= self.state << 25;
        self.state ^= self.state >> 27;
        self.state.wrapping_mul(0x2545_F491_4F6C_DD1D)
    }

    /// A number from 0 to `count` − 1. `count` must not be 0.
    pub fn below(&mut self, count: usize) -> usize {
        assert!(count > 0, "there is no number below 0");
        let product = u128::from(self.number()) * count as u128;
        (product >> 64) as usize
    }

    /// A number of this range, which must not be empty.
    pub fn within(&mut self, range: RangeInclusive<usize>) -> usize {
        range.start() + self.below(range.end() - range.start() + 1)
    }

    /// The same for counts in a table.
    pub fn count(&mut self, range: &RangeInclusive<u8>) -> u8 {
        let wide = usize::from(*range.start())..=usize::from(*range.end());
        self.within(wide) as u8
    }

    /// Any byte.
    pub fn byte(&mut self) -> u8 {
        (self.number() >> 56) as u8
    }

    /// Any two-byte number.
    pub fn two(&mut self) -> u16 {
        (self.number() >> 48) as u16
    }

    /// As many bytes, each one any byte.
    pub fn bytes(&mut self, count: usize) -> Vec<u8> {
        (0..count).map(|_| self.byte()).collect()
    }

    /// One entry of a list that is not empty.
    pub fn pick<T: Copy>(&mut self, from: &[T]) -> T {
        from[self.below(from.len())]
    }

    /// True once in so many times.
    pub fn once_in(&mut self, times: usize) -> bool {
        self.below(times) == 0
    }

    /// Puts the entries into another order.
    pub fn shuffle<T>(&mut self, entries: &mut [T]) {
        for last in (1..entries.len()).rev() {
            entries.swap(last, self.below(last + 1));
        }
    }
}

#[cfg(test)]
mod tests {
    use super::Random;

    #[test]
    fn the_first_numbers_are_those_of_xorshift64_star() {
        let mut random = Random::new(1);
        assert_eq!(random.number(), 0x47E4_CE4B_896C_DD1D);
        assert_eq!(random.number(), 0xABCF_A6A8_E079_651D);
    }

    #[test]
    fn a_seed_gives_the_same_numbers_again() {
        let numbers = |seed| Random::new(seed).bytes(100);
        assert_eq!(numbers(7), numbers(7));
        assert_ne!(numbers(7), numbers(8));
        assert_eq!(numbers(0), numbers(Random::SEED));
    }

    #[test]
    fn ranges_are_kept_and_used_up() {
        let mut random = Random::new(Random::SEED);
        let drawn: Vec<usize> = (0..1000).map(|_| random.within(3..=9)).collect();
        assert_eq!(drawn.iter().min(), Some(&3));
        assert_eq!(drawn.iter().max(), Some(&9));
    }
}
