//! Random choices from a seed (splitmix64).
use super::numbers::NUMBERS;

pub struct Pick(pub u64);

/// Doubles that are easily got wrong: zeros, the least, infinities, NaNs with a payload.
const SPECIAL: [u64; 9] =
    [0, 1 << 63, 1, 0x7FF << 52, 0xFFF << 52, 0x7FF0_0000_0000_0001, 0xFFF8_1234_5678_9ABC, 0x3FF << 52, u64::MAX];

impl Pick {
    pub fn word(&mut self) -> u64 {
        self.0 = self.0.wrapping_add(0x9E37_79B9_7F4A_7C15);
        let mixed = (self.0 ^ self.0 >> 30).wrapping_mul(0xBF58_476D_1CE4_E5B9);
        let mixed = (mixed ^ mixed >> 27).wrapping_mul(0x94D0_49BB_1331_11EB);
        mixed ^ mixed >> 31
    }

    pub fn below(&mut self, bound: usize) -> usize {
        (self.word() % bound as u64) as usize
    }

    pub fn one_in(&mut self, n: usize) -> bool {
        self.below(n) == 0
    }

    pub fn of<T: Copy>(&mut self, choices: &[T]) -> T {
        choices[self.below(choices.len())]
    }

    pub fn byte(&mut self) -> u8 {
        self.word() as u8
    }

    pub fn double(&mut self) -> u64 {
        if self.one_in(4) {
            self.of(&SPECIAL)
        } else {
            self.word()
        }
    }

    /// The number of a feature.
    pub fn number(&mut self) -> u32 {
        if self.one_in(2) {
            self.of(&NUMBERS)
        } else {
            self.word() as u32
        }
    }

    pub fn bytes(&mut self, count: usize) -> Vec<u8> {
        (0..count).map(|_| self.byte()).collect()
    }
}
