//! Occurrences of prefixes, support and weighted support.

use crate::place::Place;
use crate::sequences::{Position, Sequence, SequenceSet};
use crate::template::Template;

/// One component of a prefix: its letters as digits and the gap range before.
#[derive(Clone, Debug)]
pub(crate) struct Piece {
    pub letters: Vec<u8>,
    pub low: u16,
    pub high: u16,
}

/// "A prefix of j letters is the same with the last component cut short and
/// later ones dropped."
pub(crate) fn pieces(template: &Template, prefix: &Place) -> Vec<Piece> {
    let letters = prefix.values(template.profile);
    let mut pieces = Vec::new();
    for (component, part) in template.dealt_out(&letters) {
        pieces.push(Piece {
            letters: part.to_vec(),
            low: component.low,
            high: component.high,
        });
    }
    pieces
}

/// The starts that the next component may have: "each next start minus the
/// previous start minus the previous length lies in its range". They may lie
/// beyond the sequence's end.
pub(crate) fn next_starts(start: Position, piece: &Piece, next: &Piece) -> (Position, Position) {
    let after = start.0 + piece.letters.len() as u32;
    (
        Position(after + u32::from(next.low)),
        Position(after + u32::from(next.high)),
    )
}

/// In how many ways something can stand in a sequence, for each start.
#[derive(Clone, Debug)]
pub(crate) struct Ways(Vec<u64>);

impl Ways {
    /// The ways that start at this position; none beyond the sequence's end.
    pub fn at(&self, start: Position) -> u64 {
        self.0.get(start.letters_before()).copied().unwrap_or(0)
    }

    /// The ways that start at one of the positions from `first` to `last`.
    pub fn between(&self, first: Position, last: Position) -> u64 {
        let here = first.letters_before().min(self.0.len());
        let end = (last.0 as usize).min(self.0.len());
        self.0.get(here..end).unwrap_or(&[]).iter().sum()
    }

    /// The ways of all starts.
    pub fn in_all(&self) -> u64 {
        self.0.iter().sum()
    }

    /// The last position of the sequence.
    pub fn last_position(&self) -> Position {
        Position(self.0.len() as u32)
    }
}

/// "An occurrence in a sequence is one start position for each component,
/// such that each component's letters stand there and each next start minus
/// the previous start minus the previous length lies in its range."
///
/// For every piece, and every start of it, the ways in which this piece and
/// those after it stand. A start has at most 256 next starts, so no number
/// here passes 256^5, and all together stay "below 2^57".
pub(crate) fn ways(sequence: &Sequence, pieces: &[Piece]) -> Vec<Ways> {
    let Some((piece, later_pieces)) = pieces.split_first() else {
        return Vec::new();
    };
    let later = ways(sequence, later_pieces);
    let here = sequence
        .positions()
        .map(|start| {
            if !sequence.stand_at(&piece.letters, start) {
                return 0;
            }
            match (later_pieces.first(), later.first()) {
                (Some(next), Some(next_ways)) => {
                    let (first, last) = next_starts(start, piece, next);
                    next_ways.between(first, last)
                }
                _ => 1,
            }
        })
        .collect();
    let mut all = vec![Ways(here)];
    all.extend(later);
    all
}

/// What is counted of a prefix of at least one letter.
#[derive(Clone, Debug, PartialEq, Eq)]
pub(crate) struct Counts {
    pub support: u32,
    pub weighted_support: u64,
}

/// "Presence is kept as one mark for each sequence, and the support is the
/// number of marks." "The row's weighted support becomes the length of the
/// recovery list, summed over sequences": all occurrences count, also those
/// that share a start.
pub(crate) fn count(set: &SequenceSet, template: &Template, prefix: &Place) -> Counts {
    let pieces = pieces(template, prefix);
    let mut marks = Vec::new();
    let mut weighted_support = 0;
    for sequence in set.sequences() {
        let ways = ways(sequence, &pieces);
        let occurrences = ways.first().map_or(0, Ways::in_all);
        marks.push(occurrences > 0);
        weighted_support += occurrences;
    }
    let support = marks.iter().filter(|mark| **mark).count() as u32;
    Counts {
        support,
        weighted_support,
    }
}

/// "Frequent means that support is at least the quorum." "The empty prefix
/// counts as frequent."
pub(crate) fn is_frequent(
    set: &SequenceSet,
    template: &Template,
    quorum: u64,
    prefix: &Place,
) -> bool {
    prefix.letters == 0 || u64::from(count(set, template, prefix).support) >= quorum
}
