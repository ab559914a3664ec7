//! Rows with few bits. The words of a long sequence are taken in lines, and a
//! bit for each line tells whether it has one. Where few lines do, only those
//! are looked at.

use crate::words::{keep, Row, Span};
use std::ops::Range;

/// The words of a line.
pub const LINE: usize = 8;
/// The words of a sequence that is long, or more.
const LONG: usize = 128;
/// So many lines are looked at before it is asked whether they are few.
const SOME: usize = 4;

impl Span {
    /// The long sequences, by their numbers.
    pub fn long(spans: &[Span]) -> Vec<(usize, Span)> {
        let all = spans.iter().copied().enumerate();
        all.filter(|(_, span)| span.is_long()).collect()
    }

    pub fn is_long(self) -> bool {
        self.words().len() >= LONG
    }

    /// The words that tell of a long sequence's lines, each of 64. They are counted
    /// from where the sequence begins: it has `LONG` words at least, and 64 lines
    /// are more than that, so that no two sequences have one in common.
    pub fn told(self) -> Range<usize> {
        let first = self.begin() / LONG;
        first..first + self.words().len().div_ceil(64 * LINE)
    }
}

/// The lines that have a bit, of at most 64.
fn with_bit(words: &[u64]) -> u64 {
    let has = |line: &[u64]| u64::from(line.iter().fold(0, |all, word| all | word) != 0);
    let (lines, rest) = words.as_chunks::<LINE>();
    let whole = lines
        .iter()
        .rev()
        .fold(0, |told, line| told << 1 | has(line));
    match rest.is_empty() {
        true => whole,
        false => whole | has(rest) << lines.len(),
    }
}

impl Row {
    /// Decides whether a row of which all words are written has few bits, and
    /// tells its lines if so. It has many once more than half of the lines that
    /// were looked at have one.
    #[inline(never)]
    pub fn decide(&mut self, long: &[(usize, Span)]) {
        let (mut some, mut all) = (0, 0);
        for (sequence, span) in long {
            if !self.has_mark(*sequence) {
                continue;
            }
            let words = self.words[span.words()].chunks(64 * LINE);
            for (told, words) in self.lines[span.told()].iter_mut().zip(words) {
                *told = 0;
                for (at, words) in words.chunks(SOME * LINE).enumerate() {
                    let lines = with_bit(words);
                    *told |= lines << (SOME * at);
                    some += lines.count_ones() as usize;
                    all += words.len().div_ceil(LINE);
                    if some > all / 2 {
                        return;
                    }
                }
            }
        }
        self.few = all > 0;
    }

    /// Clears the lines that have no bit, so that all words are written.
    #[inline(never)]
    pub fn make_whole(&mut self, long: &[(usize, Span)]) {
        for (sequence, span) in long.iter().filter(|_| self.few) {
            if !self.has_mark(*sequence) {
                continue;
            }
            let words = self.words[span.words()].chunks_mut(64 * LINE);
            for (told, words) in self.lines[span.told()].iter().zip(words) {
                for (bit, line) in words.chunks_mut(LINE).enumerate() {
                    if told >> bit & 1 == 0 {
                        line.fill(0);
                    }
                }
            }
        }
        self.few = false;
    }
}

/// One letter more in the lines that have a bit, and which of them still have
/// one. Whether any has.
pub fn keep_lines(
    row: &[u64],
    told: &[u64],
    letter: &[u64],
    i: usize,
    out: &mut [u64],
    to: &mut [u64],
) -> bool {
    let mut any = 0;
    for (word, (bits, to)) in told.iter().zip(to).enumerate() {
        let (mut bits, mut left) = (*bits, 0);
        while bits != 0 {
            let bit = bits.trailing_zeros() as usize;
            bits &= bits - 1;
            let at = LINE * (64 * word + bit);
            let (row, letter, out) = (&row[at..], &letter[at..], &mut out[at..]);
            let all = match (row.first_chunk(), out.first_chunk_mut()) {
                (Some(row), Some(out)) => keep_line(row, letter, i, out),
                _ => keep(row, letter, i, out),
            };
            left |= u64::from(all != 0) << bit;
        }
        *to = left;
        any |= left;
    }
    any != 0
}

/// One letter more in a line, and all of its words joined. The letter's words go
/// on to the end of the sequence.
#[inline(always)]
fn keep_line(row: &[u64; LINE], letter: &[u64], i: usize, out: &mut [u64; LINE]) -> u64 {
    let mut all = 0;
    if i == 0 {
        for ((row, letter), out) in row.iter().zip(&letter[..LINE]).zip(out) {
            *out = row & letter;
            all |= *out;
        }
        return all;
    }
    let mut high = letter.get(LINE).copied().unwrap_or(0);
    for ((row, low), out) in row.iter().zip(&letter[..LINE]).zip(out).rev() {
        *out = row & (low >> i | high << (64 - i));
        all |= *out;
        high = *low;
    }
    all
}
