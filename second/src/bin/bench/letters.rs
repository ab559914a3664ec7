//! The letters' own rows, which one letter more is an AND with.

use crate::walk::Set;
use crate::words::Span;

/// The rows of the four letters. Bits 1 and 2 of its byte tell a letter from the
/// others: those of eight letters are gathered by one multiplication.
pub fn letter_rows(set: &Set, words: usize) -> [Vec<u64>; 4] {
    let mut rows = [(); 4].map(|()| Vec::with_capacity(words));
    for sequence in set.sequences() {
        for letters in sequence.chunks(64) {
            let (mut low, mut high) = (0, 0);
            let (eights, rest) = letters.as_chunks();
            let mut last = [0; 8];
            last[..rest.len()].copy_from_slice(rest);
            for (at, eight) in eights.iter().chain([&last]).take(8).enumerate() {
                let eight = u64::from_le_bytes(*eight);
                low |= gathered(eight >> 1) << (8 * at);
                high |= gathered(eight >> 2) << (8 * at);
            }
            let all = u64::MAX >> (64 - letters.len());
            let [a, c, g, t] = &mut rows;
            a.push(all & !low & !high);
            c.push(low & !high);
            g.push(low & high);
            t.push(high & !low);
        }
    }
    rows
}

/// A letter's row shifted for each of so many places of a component, one after
/// another, each sequence's words for themselves.
pub fn shifted_rows(row: &[u64], spans: &[Span], places: usize) -> Vec<u64> {
    let mut table = row.repeat(places);
    for (i, out) in table.chunks_mut(row.len().max(1)).enumerate().skip(1) {
        for span in spans {
            let (words, out) = (&row[span.words()], &mut out[span.words()]);
            let next = words.get(1..).unwrap_or(&[]);
            for ((out, low), high) in out.iter_mut().zip(words).zip(next) {
                *out = low >> i | high << (64 - i);
            }
            out.iter_mut().skip(next.len()).for_each(|last| *last >>= i);
        }
    }
    table
}

/// The lowest bits of eight bytes, the first in the lowest.
fn gathered(bytes: u64) -> u64 {
    (bytes & 0x0101_0101_0101_0101).wrapping_mul(0x0102_0408_1020_4080) >> 56
}
