//! A motif's number. The letters are digits, the first one the highest, as
//! `include/tulfasheq.h` has them.

use super::Template;
use crate::caret;
use std::ops::Range;

/// The symbols of a motif, by their digits, and the bits of a digit.
const EXACT: (&[u8], u32) = (b"ACGT", 2);
const MIXED: (&[u8], u32) = (b"ACGTRYKMSWBDHV", 4);

impl Template {
    /// The symbols that a motif may have, and the bits of a digit.
    pub(super) fn symbols(&self) -> (&'static [u8], u32) {
        if self.mixed {
            MIXED
        } else {
            EXACT
        }
    }

    /// The number of a motif, from its letters: with the template's ranges
    /// between the components, as it is listed, or without. Otherwise what is
    /// wrong with it, with a caret: it may come from the command line or from
    /// a file.
    pub fn number(&self, motif: &str) -> Result<u64, String> {
        let wrong = |part: Range<usize>, why: String| {
            Err(format!(
                "the motif cannot be read: {why}\n{}",
                caret::under(motif, part)
            ))
        };
        let (symbols, bits) = self.symbols();
        let shaped = motif.contains(['[', ']']);
        let mut number: u64 = 0;
        let mut at = 0;
        for (i, component) in self.components.iter().enumerate() {
            if shaped && i > 0 {
                let range = &self.ranges[i];
                if !motif[at..].starts_with(range) {
                    return wrong(at..at + 1, format!("the template has {range} here"));
                }
                at += range.len();
            }
            for _ in 0..component.length {
                let Some(letter) = motif[at..].chars().next() else {
                    let whole = self.letters();
                    return wrong(
                        at..at,
                        format!("a motif of the template has {whole} letters"),
                    );
                };
                let width = letter.len_utf8();
                let digit = symbols.iter().position(|s| char::from(*s) == letter);
                let Some(digit) = digit else {
                    let why = if letter == '[' {
                        format!("component {} has {} letters", i + 1, component.length)
                    } else if MIXED.0.iter().any(|s| char::from(*s) == letter) {
                        format!(
                            "{letter} stands for several bases, and the search is exact (--mixed)"
                        )
                    } else {
                        format!("{letter:?} is no letter of a motif")
                    };
                    return wrong(at..at + width, why);
                };
                number = number << bits | digit as u64;
                at += width;
            }
        }
        if at < motif.len() {
            let whole = self.letters();
            return wrong(
                at..motif.len(),
                format!("a motif of the template has {whole} letters"),
            );
        }
        Ok(number)
    }

    /// How far through letter order a candidate stands, from 0 to 1: its
    /// letters as a fraction. One that has ended is told by no letters.
    pub fn share(&self, letters: u64, number: u64) -> f64 {
        if letters == 0 {
            return 1.0;
        }
        let (symbols, bits) = self.symbols();
        let (mut share, mut left) = (0.0, number);
        // From the last letter to the first.
        for _ in 0..letters {
            let digit = left & ((1 << bits) - 1);
            share = (share + digit as f64) / symbols.len() as f64;
            left >>= bits;
        }
        share
    }
}
