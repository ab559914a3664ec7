//! Rows of bits: a bit for each place of a sequence, 64 to a word, the first in
//! the lowest bit. Each sequence has whole words of its own, one sequence after
//! another.

use crate::lines::keep_lines;
use crate::walk::Set;
use std::ops::Range;

/// The words of one sequence.
#[derive(Clone, Copy, Debug)]
pub struct Span {
    begin: u16,
    end: u16,
}

impl Span {
    /// Each sequence's words.
    pub fn of(set: &Set) -> Vec<Span> {
        let mut end = 0;
        let span = |length: &u32| {
            let begin = end;
            end += length.div_ceil(64) as u16;
            Span { begin, end }
        };
        set.lengths.iter().map(span).collect()
    }

    pub fn begin(self) -> usize {
        self.begin.into()
    }

    pub fn end(self) -> usize {
        self.end.into()
    }

    /// Its words.
    pub fn words(self) -> Range<usize> {
        self.begin()..self.end()
    }
}

/// The words of all sequences, and a mark for each sequence that has a bit set.
/// What stands where there is no mark is left over from another row; and so is,
/// in a row with few bits, what stands in a long sequence where its lines have
/// none.
#[derive(Clone)]
pub struct Row {
    pub words: Vec<u64>,
    pub marks: [u64; 16],
    /// Which lines of the long sequences have a bit, told where the row is one
    /// with few.
    pub lines: [u64; 16],
    pub few: bool,
}

impl Row {
    /// No bit of any sequence.
    pub fn empty(spans: &[Span]) -> Row {
        let words = spans.last().map_or(0, |span| span.end());
        Row {
            words: vec![0; words],
            marks: [0; 16],
            lines: [0; 16],
            few: false,
        }
    }

    /// Every bit of every sequence.
    pub fn full(spans: &[Span]) -> Row {
        let mut row = Row::empty(spans);
        row.words.fill(u64::MAX);
        for sequence in 0..spans.len() {
            row.marks[sequence / 64] |= 1 << (sequence % 64);
        }
        row
    }

    /// The sequences that have a mark.
    pub fn marked(&self) -> impl Iterator<Item = usize> + '_ {
        self.marks.iter().enumerate().flat_map(|(word, bits)| {
            let mut bits = *bits;
            std::iter::from_fn(move || {
                let at = (bits != 0).then(|| 64 * word + bits.trailing_zeros() as usize);
                bits &= bits.wrapping_sub(1);
                at
            })
        })
    }

    pub fn has_mark(&self, sequence: usize) -> bool {
        self.marks[sequence / 64] >> (sequence % 64) & 1 == 1
    }

    /// How many of so many sequences have a mark.
    fn count(&self, sequences: usize) -> u32 {
        let marks = &self.marks[..sequences.div_ceil(64)];
        marks.iter().map(|marks| marks.count_ones()).sum()
    }

    /// One letter more, the `i`-th of its component: those bits of a row at
    /// which the letter's own has one `i` places on. How many sequences have one;
    /// or, once fewer than the quorum can, how many still can, and then the row
    /// is not whole.
    pub fn keep(
        &mut self,
        from: &Row,
        letter: &[u64],
        i: usize,
        spans: &[Span],
        quorum: u32,
    ) -> u32 {
        self.few = false;
        let n = self.words.len();
        let (row, letter, out) = (&from.words[..n], &letter[..n], &mut self.words[..n]);
        let marks = (&from.marks, &mut self.marks);
        each(marks, spans, from.count(spans.len()), quorum, |span| {
            let (begin, end) = (span.begin(), span.end());
            if end - begin == 1 {
                out[begin] = row[begin] & letter[begin] >> i;
                return out[begin] != 0;
            }
            let (row, letter) = (&row[begin..end], &letter[begin..end]);
            keep(row, letter, i, &mut out[begin..end]) != 0
        })
    }

    /// The same of a row with few bits: in long sequences only the lines that have
    /// one are looked at.
    #[inline(never)]
    pub fn keep_few(
        &mut self,
        from: &Row,
        letter: &[u64],
        i: usize,
        spans: &[Span],
        quorum: u32,
    ) -> u32 {
        self.few = true;
        let (out, to) = (&mut self.words, &mut self.lines);
        let marks = (&from.marks, &mut self.marks);
        each(marks, spans, from.count(spans.len()), quorum, |span| {
            let (words, told) = (span.words(), span.told());
            let (row, letter) = (&from.words[words.clone()], &letter[words.clone()]);
            let out = &mut out[words];
            match span.is_long() {
                true => keep_lines(
                    row,
                    &from.lines[told.clone()],
                    letter,
                    i,
                    out,
                    &mut to[told],
                ),
                false => keep(row, letter, i, out) != 0,
            }
        })
    }

    /// The same where every sequence has one word. The quorum is looked at for
    /// each word of marks.
    pub fn keep_short(&mut self, from: &Row, letter: &[u64], i: usize, quorum: u32) -> u32 {
        let n = self.words.len();
        let mut possible = from.count(n);
        let (row, letter, out) = (&from.words[..n], &letter[..n], &mut self.words[..n]);
        let marks = from.marks.iter().zip(&mut self.marks);
        let rows = row
            .chunks(64)
            .zip(letter.chunks(64))
            .zip(out.chunks_mut(64));
        for ((all, left), ((row, letter), out)) in marks.zip(rows) {
            if possible < quorum {
                return possible;
            }
            let (mut bits, mut found) = (*all, 0);
            while bits != 0 {
                let bit = bits.trailing_zeros() as usize;
                bits &= bits - 1;
                out[bit] = row[bit] & letter[bit] >> i;
                found |= u64::from(out[bit] != 0) << bit;
            }
            *left = found;
            possible -= (all ^ found).count_ones();
        }
        possible
    }
}

/// Goes through the sequences that have a mark, as long as enough of them can be
/// left, and marks those in which a bit is left. How many can have one.
#[inline(always)]
fn each(
    (marks, left): (&[u64; 16], &mut [u64; 16]),
    spans: &[Span],
    mut possible: u32,
    quorum: u32,
    mut keep: impl FnMut(Span) -> bool,
) -> u32 {
    for ((bits, left), spans) in marks.iter().zip(left).zip(spans.chunks(64)) {
        let (mut bits, mut found) = (*bits, 0);
        while bits != 0 {
            if possible < quorum {
                return possible;
            }
            let bit = bits.trailing_zeros() as usize;
            bits &= bits - 1;
            let any = keep(spans[bit]);
            found |= u64::from(any) << bit;
            possible -= u32::from(!any);
        }
        *left = found;
    }
    possible
}

/// One letter more in a sequence of several words, and all of them joined.
pub fn keep(row: &[u64], letter: &[u64], i: usize, out: &mut [u64]) -> u64 {
    if i == 0 {
        let mut all = 0;
        for ((row, letter), out) in row.iter().zip(letter).zip(out) {
            *out = row & letter;
            all |= *out;
        }
        return all;
    }
    let (Some((last, row)), Some((end, _))) = (row.split_last(), letter.split_last()) else {
        return 0;
    };
    let Some((to, out)) = out.split_last_mut() else {
        return 0;
    };
    *to = last & end >> i;
    let mut all = *to;
    let rows = row.iter().zip(letter.iter().zip(&letter[1..])).zip(out);
    for ((row, (low, high)), out) in rows {
        *out = row & (low >> i | high << (64 - i));
        all |= *out;
    }
    all
}

/// The upper of two words, shifted up by `i` bits.
fn up(i: usize, low: u64, high: u64) -> u64 {
    (high << i) | ((low >> 1) >> (63 - i))
}

/// A word of a sequence's row that is shifted up by `d` bits.
pub fn shifted(row: &[u64], d: usize, word: usize) -> u64 {
    let (e, i) = (d / 64, d % 64);
    let at = |back: usize| word.checked_sub(back).map_or(0, |at| row[at]);
    up(i, at(e + 1), at(e))
}

/// A sequence's words shifted up by `d` bits.
fn shift_up(row: &[u64], d: usize, out: &mut [u64]) {
    let (e, i) = ((d / 64).min(row.len()), d % 64);
    let (none, out) = out.split_at_mut(e);
    none.fill(0);
    let mut low = 0;
    for (word, out) in row.iter().zip(out) {
        *out = up(i, low, *word);
        low = *word;
    }
}

/// Spreads each bit over `count` places, by shifts that double, and shifts it up
/// by `near`. `spare` is as long.
pub fn open(row: &mut [u64], near: usize, count: usize, spare: &mut [u64], out: &mut [u64]) {
    let mut have = 1;
    while have < count {
        let d = have.min(count - have);
        shift_up(row, d, spare);
        for (word, more) in row.iter_mut().zip(spare.iter()) {
            *word |= more;
        }
        have += d;
    }
    shift_up(row, near, out);
}

/// The same where a sequence has one word.
pub fn open_word(mut word: u64, near: usize, count: usize) -> u64 {
    let up = |word: u64, d: usize| word.checked_shl(d as u32).unwrap_or(0);
    let mut have = 1;
    while have < count {
        let d = have.min(count - have);
        word |= up(word, d);
        have += d;
    }
    up(word, near)
}
