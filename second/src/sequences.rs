//! The lent sequences.

use crate::profile::fits;
use crate::refusal::Refusal;

/// "Numbers and positions count from 1."
#[derive(Clone, Copy, Debug, PartialEq, Eq)]
pub(crate) struct SequenceNumber(pub u32);

/// "Positions afresh in each sequence", counted from 1.
#[derive(Clone, Copy, Debug, PartialEq, Eq, PartialOrd, Ord)]
pub(crate) struct Position(pub u32);

impl Position {
    /// How many letters of the sequence stand before this position.
    pub fn letters_before(self) -> usize {
        self.0.saturating_sub(1) as usize
    }
}

/// One sequence, as the values of its letters.
#[derive(Clone, Debug, PartialEq, Eq)]
pub(crate) struct Sequence {
    values: Vec<u8>,
}

impl Sequence {
    /// All positions of the sequence, rising.
    pub fn positions(&self) -> impl Iterator<Item = Position> {
        (1..=self.values.len() as u32).map(Position)
    }

    /// "Each component's letters stand there": whether these letters of a
    /// motif (as digits) stand from this position on, none beyond the
    /// sequence's end. A motif's letter stands where one of its bases is.
    pub fn stand_at(&self, letters: &[u8], start: Position) -> bool {
        let from = start.letters_before();
        match self.values.get(from..from + letters.len()) {
            Some(there) => (letters.iter().zip(there)).all(|(letter, value)| fits(*letter, *value)),
            None => false,
        }
    }
}

/// "Sequences are lent as one buffer of letters and a table of lengths, in
/// order." The set holds them taken apart and checked.
#[derive(Clone, Debug, PartialEq, Eq)]
pub(crate) struct SequenceSet {
    sequences: Vec<Sequence>,
    letters: u32,
}

/// The mark in the table of values for a byte that is no letter.
const NO_VALUE: u8 = 255;

/// The value of each letter (A 0, C 1, G 2, T 3), and the mark for every other
/// byte. "Let the value of a letter come from four plain comparisons": since
/// that request, the fourth, the library compares four times. The paper's
/// table is kept here so that the two are different programs.
const VALUES: [u8; 256] = {
    let mut table = [NO_VALUE; 256];
    table[b'A' as usize] = 0;
    table[b'C' as usize] = 1;
    table[b'G' as usize] = 2;
    table[b'T' as usize] = 3;
    table
};

/// Whether a byte is a letter.
pub(crate) fn is_letter(byte: u8) -> bool {
    VALUES[byte as usize] != NO_VALUE
}

impl SequenceSet {
    /// "1 to 1,024 sequences"
    pub const MOST_SEQUENCES: usize = 1_024;
    /// "at most 65,536 letters in all"
    pub const MOST_LETTERS: usize = 65_536;

    /// Checks 1 to 4, in this order, and takes the sequences apart.
    /// "A length may be 0. Letters are the bytes A, C, G, T."
    pub fn lent(letters: &[u8], lengths: &[u32]) -> Result<SequenceSet, Refusal> {
        if lengths.is_empty() || lengths.len() > Self::MOST_SEQUENCES {
            return Err(Refusal::plain(Refusal::NUMBER_OF_SEQUENCES));
        }
        if letters.len() > Self::MOST_LETTERS {
            return Err(Refusal::plain(Refusal::LETTER_BUFFER));
        }
        let sum: u64 = lengths.iter().map(|length| u64::from(*length)).sum();
        if sum != letters.len() as u64 {
            return Err(Refusal::plain(Refusal::LENGTHS));
        }
        let values: Vec<u8> = letters.iter().map(|byte| VALUES[*byte as usize]).collect();
        // "offset of the first": "an offset counts from 0 in the whole buffer"
        if let Some(offset) = values.iter().position(|value| *value == NO_VALUE) {
            return Err(Refusal::at(Refusal::NO_LETTER, offset as u64));
        }

        let mut sequences = Vec::new();
        let mut rest = values.into_iter();
        for length in lengths {
            let values = rest.by_ref().take(*length as usize).collect();
            sequences.push(Sequence { values });
        }
        Ok(SequenceSet {
            sequences,
            letters: letters.len() as u32,
        })
    }

    /// The number of sequences.
    pub fn number_of_sequences(&self) -> u32 {
        self.sequences.len() as u32
    }

    /// The number of letters in all.
    pub fn letters_in_all(&self) -> u32 {
        self.letters
    }

    /// The sequences in order.
    pub fn sequences(&self) -> &[Sequence] {
        &self.sequences
    }

    /// The sequences in order, each with its number.
    pub fn numbered(&self) -> impl Iterator<Item = (SequenceNumber, &Sequence)> {
        (1..).map(SequenceNumber).zip(self.sequences.iter())
    }
}
