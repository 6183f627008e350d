//! Pseudorandom numbers.

use crate::assembler::Kind;

/// Random is a sequence of pseudorandom numbers by xorshift.
pub struct Random(u64);

impl Random {
    /// new begins the sequence of a seed.
    pub fn new(seed: u64) -> Self {
        Random(seed.wrapping_mul(0x9e37_79b9_7f4a_7c15) | 1)
    }

    fn next(&mut self) -> u64 {
        self.0 ^= self.0 << 13;
        self.0 ^= self.0 >> 7;
        self.0 ^= self.0 << 17;
        self.0.wrapping_mul(0x2545_f491_4f6c_dd1d) >> 16
    }

    /// below gives a number from 0 to the limit minus 1.
    pub fn below(&mut self, limit: usize) -> usize {
        (self.next() % limit as u64) as usize
    }

    pub fn byte(&mut self) -> u8 {
        self.next() as u8
    }

    /// one_in is true once in so many times.
    pub fn one_in(&mut self, times: usize) -> bool {
        self.below(times) == 0
    }

    pub fn one_of<T: Copy>(&mut self, choices: &[T]) -> T {
        choices[self.below(choices.len())]
    }

    /// word gives a word, most often one at which something changes.
    pub fn word(&mut self) -> i32 {
        match self.below(8) {
            0..=3 => self.below(7) as i32 - 1,
            4 => self.below(80) as i32 - 20,
            5 => self
                .one_of(&[31, 32, 33, 97, 127, 128, 254, 255, 256, 257, 300, -128, -256, -300, 4_095, 8_192, 65_536]),
            6 => {
                self.one_of(&[i32::MIN, i32::MIN + 1, i32::MAX, i32::MAX - 1, 1_000_000_000, -1_000_000_000, 99, -100])
            }
            _ => self.next() as i32,
        }
    }

    pub fn kind(&mut self) -> Kind {
        self.one_of(&[Kind::Char, Kind::Int])
    }
}
