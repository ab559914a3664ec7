//! Random numbers from a printed seed, and inputs made of them.

use super::request::{Set, Slot, Value};
use crate::Profile;

/// A generator (splitmix64): the same numbers for the same seed, everywhere.
pub struct Random(u64);

impl Random {
    pub fn new(seed: u64) -> Random {
        Random(seed)
    }

    pub fn any(&mut self) -> u64 {
        self.0 = self.0.wrapping_add(0x9E37_79B9_7F4A_7C15);
        let mut z = self.0;
        z = (z ^ (z >> 30)).wrapping_mul(0xBF58_476D_1CE4_E5B9);
        z = (z ^ (z >> 27)).wrapping_mul(0x94D0_49BB_1331_11EB);
        z ^ (z >> 31)
    }

    /// A number from 0 to `limit` - 1.
    pub fn below(&mut self, limit: u64) -> u64 {
        self.any() % limit
    }

    /// A number from `low` to `high`.
    pub fn within(&mut self, low: u64, high: u64) -> u64 {
        low + self.below(high - low + 1)
    }

    /// True once in `n` times.
    pub fn once_in(&mut self, n: u64) -> bool {
        self.below(n) == 0
    }

    pub fn pick<T: Copy>(&mut self, among: &[T]) -> T {
        among[self.below(among.len() as u64) as usize]
    }

    /// A number that is small, at the edge of a width, or anything.
    pub fn edge(&mut self) -> u64 {
        match self.below(4) {
            0 => self.below(5),
            1 => 1 << self.below(64),
            2 => u64::MAX >> self.below(64),
            _ => self.any(),
        }
    }

    pub fn bytes(&mut self, length: usize) -> Vec<u8> {
        (0..length).map(|_| self.any() as u8).collect()
    }

    pub fn narrow(&mut self, length: usize) -> Vec<u32> {
        (0..length).map(|_| self.any() as u32).collect()
    }

    pub fn wide(&mut self, length: usize) -> Vec<u64> {
        (0..length).map(|_| self.any()).collect()
    }

    /// Letters from the first `alphabet` of A, C, G, T.
    pub fn letters(&mut self, length: u64, alphabet: u64) -> Vec<u8> {
        (0..length)
            .map(|_| b"ACGT"[self.below(alphabet) as usize])
            .collect()
    }

    /// 1 to `most` sequences of 0 to `longest` letters.
    pub fn set(&mut self, most: u64, longest: u64, alphabet: u64) -> Set {
        let sequences = self.within(1, most);
        let sequences: Vec<Vec<u8>> = (0..sequences)
            .map(|_| {
                let length = self.below(longest + 1);
                self.letters(length, alphabet)
            })
            .collect();
        Set::of(&sequences)
    }

    /// A template within the rules, of at most `most` letters in all, as the
    /// part of a search value that says it.
    pub fn template(&mut self, most: u64, widest: u64) -> Value {
        let mut left = self.within(1, most);
        let mut slots = Vec::new();
        while left > 0 && slots.len() < 6 {
            let longest = left.min(self.pick(&[1, 1, 4, 12]));
            let length = self.within(1, longest);
            let low = self.below(3).min(widest);
            let high = self.within(low, widest);
            let range = if slots.is_empty() {
                (0, 0)
            } else {
                (low, high)
            };
            slots.push(Slot::new(length as u16, range.0 as u16, range.1 as u16));
            left -= length;
        }
        Value::of(&slots)
    }

    /// The same template in the mixed profile, with an allowance of at most
    /// `most` for each component, and at most its length.
    pub fn mixed(&mut self, value: Value, most: u64) -> Value {
        let allowances = value.slots.map(|slot| {
            let most = most.min(slot.length.into());
            self.below(most + 1) as u16
        });
        value.mixed(&allowances)
    }

    /// The same template in a profile, in the mixed one with such allowances.
    pub fn in_profile(&mut self, profile: Profile, value: Value, most: u64) -> Value {
        match profile {
            Profile::Exact => value,
            Profile::Mixed => self.mixed(value, most),
        }
    }
}
