//! The parts of the sequences in which a motif can stand, so that the library
//! need not look through all of them for each motif of a long list.
//!
//! A component is taken in parts of a few letters. Where each part stands is
//! listed by the library once and kept, and the library's join then leaves
//! only the starts of the first part that the others follow within their gaps.
//! Every occurrence begins at one of these. So all occurrences are in the
//! windows that begin there and have as many letters as one can have, and what
//! the library finds in a window it finds in the sequence. Where letters of
//! two records lie side by side in memory, the join may leave a start too
//! many; the window, which ends with the record, then holds no occurrence.

mod parts;

use crate::failure::Answer;
use crate::refusals;
use crate::sequences::Sequences;
use crate::template::Template;
use library::{limits, Recovered, Refusal};
use parts::{parts, Part};
use std::collections::HashMap;

/// Windows with fewer letters between them are one: so there are seldom more
/// than the library takes sequences.
const BETWEEN: usize = limits::LETTERS / limits::SEQUENCES;

/// The most positions that are kept, of four bytes each.
const MOST_KEPT: usize = 48 << 20;

/// A piece of a record: where its letters stand in those of all records.
struct Piece {
    record: usize,
    start: usize,
    end: usize,
}

/// The sequences, narrowed to where a motif can stand.
pub struct Narrowed<'a> {
    sequences: &'a Sequences,
    template: &'a Template,
    parts: Vec<Part>,
    /// The most letters of an occurrence, gaps and all.
    span: usize,
    /// Where each record ends in the letters of all.
    ends: Vec<usize>,
    /// Where parts stand, from 1, by their lengths and numbers.
    kept: HashMap<(u16, u64), Vec<u32>>,
    /// How many positions these are.
    positions: usize,
    motif: u64,
    pieces: Vec<Piece>,
    letters: Vec<u8>,
    lengths: Vec<u32>,
}

impl<'a> Narrowed<'a> {
    /// Of sequences and a template that the library takes, and of no motif yet.
    pub fn new(sequences: &'a Sequences, template: &'a Template) -> Narrowed<'a> {
        let letters = |length: &u32| *length as usize;
        let ends = sequences.lengths.iter().map(letters);
        Narrowed {
            sequences,
            template,
            parts: parts(template),
            span: template
                .components
                .iter()
                .map(|c| (c.length + c.high) as usize)
                .sum(),
            ends: ends
                .scan(0, |end, length| {
                    *end += length;
                    Some(*end)
                })
                .collect(),
            kept: HashMap::new(),
            positions: 0,
            motif: 0,
            pieces: Vec::new(),
            letters: Vec::new(),
            lengths: Vec::new(),
        }
    }

    /// Narrows the sequences to a motif. `room` is written over. Where there is
    /// but one part, to list that would be to look for the whole motif.
    pub fn to(&mut self, motif: u64, room: &mut [u32]) -> Answer<()> {
        self.motif = motif;
        if self.parts.len() > 1 {
            let refused = |refusal| refusals::of_search(refusal, self.sequences, self.template, 0);
            let starts = self.starts(motif, room).map_err(refused)?;
            self.cut(&starts);
        } else {
            self.leave_whole();
        }
        self.letters.clear();
        self.lengths.clear();
        for piece in &self.pieces {
            let letters = &self.sequences.letters[piece.start..piece.end];
            self.letters.extend_from_slice(letters);
            self.lengths.push(letters.len() as u32);
        }
        Ok(())
    }

    /// A page of the motif's occurrences, from a row on, and how many they are.
    pub fn recover(&self, first: u64, rows: &mut [u32]) -> Answer<Recovered> {
        if self.pieces.is_empty() {
            return Ok(Recovered { rows: 0, length: 0 });
        }
        let lent = self.template.lent();
        let found = library::recover(&self.letters, &self.lengths, lent, self.motif, first, rows)
            .map_err(|refusal| {
            refusals::of_search(refusal, self.sequences, self.template, 0)
        })?;
        let width = self.template.components.len() + 1;
        for row in rows[..found.rows * width].chunks_exact_mut(width) {
            let piece = &self.pieces[row[0] as usize - 1];
            let before = piece.start - self.start_of(piece.record);
            row[0] = piece.record as u32 + 1;
            for start in &mut row[1..] {
                *start += before as u32;
            }
        }
        Ok(found)
    }

    /// Where a record begins in the letters of all.
    fn start_of(&self, record: usize) -> usize {
        self.ends[record] - self.sequences.lengths[record] as usize
    }

    /// Where the first part of a motif stands such that the others follow it,
    /// as the joins have it: from the last part to the first, each time those
    /// that have a partner among what is left of the next.
    fn starts(&mut self, motif: u64, room: &mut [u32]) -> Result<Vec<u32>, Refusal> {
        if self.positions > MOST_KEPT {
            self.kept.clear();
            self.positions = 0;
        }
        let bits = if self.template.mixed { 4 } else { 2 };
        let mut left: Option<Vec<u32>> = None;
        for i in (0..self.parts.len()).rev() {
            let part = &self.parts[i];
            let number =
                motif >> (bits * part.behind) & ((1 << (bits * u32::from(part.length))) - 1);
            let key = (part.length, number);
            if !self.kept.contains_key(&key) {
                let list = self.list(key, room)?;
                self.positions += list.len();
                self.kept.insert(key, list);
            }
            let (part, list) = (&self.parts[i], &self.kept[&key]);
            left = Some(match left {
                None => list.clone(),
                Some(next) => {
                    let mut joined = vec![0; list.len()];
                    let (low, high) = (part.low, part.high);
                    let count = library::join(list, &next, part.length, low, high, &mut joined)?;
                    joined.truncate(count);
                    joined
                }
            });
        }
        Ok(left.unwrap_or_default())
    }

    /// Where a part stands in the letters of all records, as the library lists
    /// it: by record, and so rising.
    fn list(&self, (length, number): (u16, u64), room: &mut [u32]) -> Result<Vec<u32>, Refusal> {
        let template = library::Template {
            components: 1,
            shape: &[length, 0, 0],
            // As many letters for several bases as there can be.
            allowances: &[length],
            ..self.template.lent()
        };
        let sequences = self.sequences;
        let (letters, lengths) = (&sequences.letters, &sequences.lengths);
        let found = library::recover(letters, lengths, template, number, 0, room)?;
        let rows = room[..found.rows * 2].chunks_exact(2);
        let in_all = |row: &[u32]| self.start_of(row[0] as usize - 1) as u32 + row[1];
        Ok(rows.map(in_all).collect())
    }

    /// Cuts the records into the windows that begin at these, or leaves them
    /// whole where those would be more than the library takes sequences. No
    /// two pieces share a letter, so that no occurrence is in two, and they
    /// stand in the order of the records, which is the order of the rows.
    fn cut(&mut self, starts: &[u32]) {
        self.pieces.clear();
        let mut record = 0;
        for start in starts {
            let start = *start as usize - 1;
            while start >= self.ends[record] {
                record += 1;
            }
            let end = self.ends[record].min(start + self.span);
            match self.pieces.last_mut() {
                Some(last) if last.record == record && start < last.end + BETWEEN => last.end = end,
                _ => self.pieces.push(Piece { record, start, end }),
            }
        }
        if self.pieces.len() > limits::SEQUENCES {
            self.leave_whole();
        }
    }

    /// Leaves the records as they are.
    fn leave_whole(&mut self) {
        let whole = |record| Piece {
            record,
            start: self.start_of(record),
            end: self.ends[record],
        };
        self.pieces = (0..self.ends.len()).map(whole).collect();
    }
}

#[cfg(test)]
mod tests {
    use super::Narrowed;
    use crate::sequences::Sequences;
    use crate::template::Template;

    #[test]
    fn a_piece_ends_with_its_record_and_stands_apart() {
        // AC[0,2]GT spans 6 letters at most. The first record has two far
        // apart, the second none, and the third begins with GT, behind an AC
        // that ends the one before.
        let far = "A".repeat(100);
        let file = format!(">a\nACGT{far}ACTGTA\n>b\nTTTTAC\n>c\nGTT\n>d\n\n>e\nACTTGT\n");
        let sequences = Sequences::new("file".to_string(), file.into_bytes()).expect("sequences");
        let template = Template::read("NN[0,2]NN", None).expect("a template");
        let motif = template.number("ACGT").expect("a motif");
        let mut narrowed = Narrowed::new(&sequences, &template);
        let mut room = vec![0; 3 * 200];
        narrowed.to(motif, &mut room).expect("it is narrowed");
        assert_eq!(narrowed.lengths, [6, 6, 2, 6]);
        assert_eq!(narrowed.letters, b"ACGTAAACTGTAACACTTGT");
        let found = narrowed.recover(0, &mut room).expect("it is recovered");
        assert_eq!((found.rows, found.length), (3, 3));
        assert_eq!(room[..9], [1, 1, 3, 1, 105, 108, 5, 1, 5]);
        narrowed
            .to(template.number("GGGG").expect("a motif"), &mut room)
            .expect("it is narrowed");
        assert_eq!(narrowed.recover(0, &mut room).expect("none").length, 0);
    }
}
