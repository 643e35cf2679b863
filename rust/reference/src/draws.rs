//! Drawn numbers, bytes, postings and terms for questions and tests.
//!
//! Nothing here stands for a rule of document 01. What is drawn depends on the seed alone, so that
//! all questions and tests are the same each time.

use crate::postings::Posting;

/// A generator of numbers that only look random: the xorshift of Marsaglia with 64 bits and the
/// shifts 13, 7 and 17.
#[derive(Debug, Clone)]
pub struct Draws {
    state: u64,
}

impl Draws {
    /// A generator that starts from `seed`, which must not be 0.
    pub fn new(seed: u64) -> Draws {
        assert!(seed != 0, "the generator would give nothing but 0");
        Draws { state: seed }
    }

    /// The next number of the generator.
    fn next(&mut self) -> u64 {
        self.state ^= self.state << 13;
        self.state ^= self.state >> 7;
        self.state ^= self.state << 17;
        self.state
    }

    /// A number below `bound`, which must not be 0.
    pub fn below(&mut self, bound: u64) -> u64 {
        (self.next() >> 16) % bound
    }

    /// A number from `least` to `greatest`.
    pub fn between(&mut self, least: usize, greatest: usize) -> usize {
        least + self.below((greatest - least + 1) as u64) as usize
    }

    /// Any byte.
    pub fn byte(&mut self) -> u8 {
        self.below(256) as u8
    }

    /// `length` bytes, each any byte.
    pub fn bytes(&mut self, length: usize) -> Vec<u8> {
        (0..length).map(|_| self.byte()).collect()
    }

    /// A number from 1 to 4,294,967,295. All bit lengths are equally likely.
    pub fn number(&mut self) -> u32 {
        let bits = self.between(0, 31);
        let least = 1u64 << bits;
        (least + self.below(least)) as u32
    }

    /// A posting. Half of all counts are drawn from 1 to 7, so that both forms of a code are
    /// common.
    pub fn posting(&mut self) -> Posting {
        let gap = self.number();
        let count = if self.below(2) == 0 {
            1 + self.below(7) as u32
        } else {
            self.number()
        };
        Posting::new(gap, count).expect("drawn numbers are not 0")
    }

    /// `length` bytes that a term may hold, capitals among them.
    pub fn term(&mut self, length: usize) -> Vec<u8> {
        (0..length).map(|_| 0x21 + self.below(94) as u8).collect()
    }
}

#[cfg(test)]
mod tests {
    use super::*;

    #[test]
    fn the_first_draws_by_hand() {
        // From 1: 1 xor 1 << 13 is 2001 hexadecimal; xor its shift by 7 to the right, 40, is 2041;
        // xor its shift by 17 to the left, 4082 0000, is 4082 2041.
        let mut draws = Draws::new(1);
        assert_eq!(draws.next(), 0x4082_2041);
    }
}
