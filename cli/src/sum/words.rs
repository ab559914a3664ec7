//! A sum of bytes by which damage shows, taken in words of eight bytes, so
//! that a large table is summed about as fast as it is read.
//!
//! Four lanes take the words in turn, by the round and the constants of XXH64;
//! the end is another than that one's. Each step is one-to-one in the word, in
//! the lane and in what it is folded into: so a change within one word (the
//! first to eighth byte, the ninth to sixteenth, and so on) always shows. All
//! else stays hidden with a chance of one in 2^64.

use super::Sum;

const LANES: usize = 4;
/// The bytes that the lanes take together.
const BLOCK: usize = 8 * LANES;

const FIRST: u64 = 0x9e37_79b1_85eb_ca87;
const SECOND: u64 = 0xc2b2_ae3d_27d4_eb4f;
const THIRD: u64 = 0x1656_67b1_9e37_79f9;
const FOURTH: u64 = 0x85eb_ca77_c2b2_ae63;

/// A sum that grows with the bytes, in pieces of any size.
#[derive(Clone, Debug)]
pub struct Words {
    lanes: [u64; LANES],
    /// The last bytes, fewer than the lanes take together.
    rest: [u8; BLOCK],
    held: usize,
    length: u64,
}

impl Words {
    /// The sum of no bytes.
    pub fn none() -> Words {
        Words {
            lanes: [FIRST, SECOND, THIRD, FOURTH],
            rest: [0; BLOCK],
            held: 0,
            length: 0,
        }
    }

    /// The sum of bytes.
    pub fn of(bytes: &[u8]) -> Sum {
        let mut words = Words::none();
        words.and(bytes);
        words.sum()
    }

    /// Takes further bytes.
    pub fn and(&mut self, mut bytes: &[u8]) {
        self.length = self.length.wrapping_add(bytes.len() as u64);
        if self.held > 0 {
            let (more, after) = bytes.split_at(bytes.len().min(BLOCK - self.held));
            self.rest[self.held..self.held + more.len()].copy_from_slice(more);
            self.held += more.len();
            bytes = after;
            if self.held < BLOCK {
                return;
            }
            take(&mut self.lanes, &self.rest);
            self.held = 0;
        }
        let (blocks, rest) = bytes.as_chunks();
        let mut lanes = self.lanes;
        for block in blocks {
            take(&mut lanes, block);
        }
        self.lanes = lanes;
        self.rest[..rest.len()].copy_from_slice(rest);
        self.held = rest.len();
    }

    /// The sum of the bytes so far: the last ones with zeros behind them, then
    /// the number of bytes and the lanes one after the other.
    pub fn sum(&self) -> Sum {
        let mut lanes = self.lanes;
        if self.held > 0 {
            let mut rest = self.rest;
            rest[self.held..].fill(0);
            take(&mut lanes, &rest);
        }
        let mut sum = self.length;
        for lane in lanes {
            sum = (sum ^ lane)
                .rotate_left(27)
                .wrapping_mul(FIRST)
                .wrapping_add(FOURTH);
        }
        sum = (sum ^ (sum >> 33)).wrapping_mul(SECOND);
        sum = (sum ^ (sum >> 29)).wrapping_mul(THIRD);
        Sum(sum ^ (sum >> 32))
    }
}

/// Each lane takes its word.
#[inline]
fn take(lanes: &mut [u64; LANES], block: &[u8; BLOCK]) {
    let (words, _) = block.as_chunks::<8>();
    for (lane, word) in lanes.iter_mut().zip(words) {
        *lane = lane
            .wrapping_add(u64::from_le_bytes(*word).wrapping_mul(SECOND))
            .rotate_left(31)
            .wrapping_mul(FIRST);
    }
}

#[cfg(test)]
mod tests {
    use super::Words;
    use crate::sum::Sum;
    use std::collections::HashSet;

    /// Bytes that look random.
    fn bytes(size: usize) -> Vec<u8> {
        let mut number = 7u64;
        (0..size)
            .map(|_| {
                number = number.wrapping_mul(0x5851_f42d_4c95_7f2d).wrapping_add(1);
                (number >> 56) as u8
            })
            .collect()
    }

    #[test]
    fn a_sum_stays_what_it_is() {
        // They stand in the jobs and the tables of operators.
        assert_eq!(Words::of(b""), Sum(0xd07a_ebf0_4e95_d2e0));
        assert_eq!(
            Words::of(b"motif\tsupport\toccurrences\n"),
            Sum(0xb3fd_6535_3a4a_371c)
        );
        assert_eq!(Words::of(&bytes(1_000)), Sum(0x5503_33e5_ffee_5c0d));
    }

    #[test]
    fn pieces_of_any_size_give_the_sum_of_the_whole() {
        let whole = bytes(301);
        for size in 1..=whole.len() {
            let mut words = Words::none();
            for piece in whole.chunks(size) {
                words.and(piece);
                words.and(b"");
            }
            assert_eq!(words.sum(), Words::of(&whole), "pieces of {size}");
        }
        // Also of sizes that change, and when a sum was asked for between.
        let mut words = Words::none();
        let (mut at, mut size) = (0, 0);
        while at < whole.len() {
            let end = whole.len().min(at + size);
            words.and(&whole[at..end]);
            assert_eq!(words.sum(), Words::of(&whole[..end]));
            (at, size) = (end, size + 3);
        }
    }

    #[test]
    fn every_bit_and_every_pair_of_bits_counts() {
        let whole = bytes(301);
        let mut seen = HashSet::from([Words::of(&whole).0]);
        let mut fresh = |bytes: &[u8], what: &str| {
            assert!(seen.insert(Words::of(bytes).0), "{what}");
        };
        for at in 0..whole.len() {
            for bit in 0..8 {
                let mut changed = whole.clone();
                changed[at] ^= 1 << bit;
                fresh(&changed, &format!("bit {bit} of byte {at}"));
            }
        }
        // Two bits of one lane, one in a word and one in the lane's next.
        for one in 0..64 {
            for other in 0..64 {
                let mut changed = whole.clone();
                changed[8 + one / 8] ^= 1 << (one % 8);
                changed[40 + other / 8] ^= 1 << (other % 8);
                fresh(&changed, &format!("bits {one} and {other}"));
            }
        }
    }

    #[test]
    fn words_that_change_places_show() {
        let whole = bytes(320);
        let mut seen = HashSet::from([Words::of(&whole).0]);
        for one in 0..40 {
            for other in one + 1..40 {
                let mut changed = whole.clone();
                changed[8 * one..8 * one + 8].copy_from_slice(&whole[8 * other..8 * other + 8]);
                changed[8 * other..8 * other + 8].copy_from_slice(&whole[8 * one..8 * one + 8]);
                assert!(seen.insert(Words::of(&changed).0), "{one} and {other}");
            }
        }
    }

    #[test]
    fn what_is_cut_or_made_longer_shows_also_by_zeros() {
        for start in [bytes(301), vec![0; 301]] {
            let mut seen = HashSet::new();
            for size in 0..=start.len() {
                assert!(seen.insert(Words::of(&start[..size]).0), "{size}");
            }
            for zeros in 1..100 {
                let longer = [&start[..], &vec![0; zeros]].concat();
                assert!(seen.insert(Words::of(&longer).0), "{zeros} zeros");
            }
        }
    }
}
