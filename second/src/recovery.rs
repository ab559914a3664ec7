//! Recovery of occurrences.

use crate::occurrence::{next_starts, pieces, ways, Piece, Ways};
use crate::place::Place;
use crate::refusal::Refusal;
use crate::sequences::{Position, SequenceSet};
use crate::template::Template;

/// "Answers the rows written and the list's whole length."
#[derive(Clone, Copy, Debug, PartialEq, Eq)]
pub struct Recovered {
    /// The rows written.
    pub rows: usize,
    /// The whole list's length in rows.
    pub length: u64,
}

/// "Recovery takes a motif number and a first row number f (from 0)." It
/// checks "1 to 8, 14, 15", with 24 after 8. "First row equal to the length
/// gives no rows."
pub fn recover(
    letters: &[u8],
    lengths: &[u32],
    template: &Template,
    motif: u64,
    first: u64,
    out: &mut [u32],
) -> Result<Recovered, Refusal> {
    let set = SequenceSet::lent(letters, lengths)?;
    template.check()?;
    // "A motif is K letters": what breaks the rule for a place of K letters "is
    // 14 in recovery and 23 in a place".
    let motif = Place {
        letters: template.letters_in_all() as u8,
        number: motif,
    };
    if !motif.keeps_its_rule(template) {
        return Err(Refusal::plain(Refusal::MOTIF_NUMBER));
    }
    let pieces = pieces(template, &motif);
    let all_ways: Vec<Vec<Ways>> = set
        .sequences()
        .iter()
        .map(|sequence| ways(sequence, &pieces))
        .collect();
    let length = all_ways
        .iter()
        .filter_map(|ways| ways.first())
        .map(Ways::in_all)
        .sum();
    if first > length {
        return Err(Refusal::plain(Refusal::FIRST_ROW));
    }

    let mut table = Table {
        skip: first,
        row_length: pieces.len() + 1,
        rows: 0,
        out,
    };
    // "ordered by sequence, then by first start"
    for ((number, _), ways) in set.numbered().zip(&all_ways) {
        let last = ways.first().map_or(Position(0), Ways::last_position);
        let mut row = vec![number.0];
        descend(&pieces, ways, (Position(1), last), &mut row, &mut table);
    }
    Ok(Recovered {
        rows: table.rows,
        length,
    })
}

/// The lent table that rows are written to.
struct Table<'a> {
    /// Rows of the list still to be passed over before the first is written.
    skip: u64,
    row_length: usize,
    rows: usize,
    out: &'a mut [u32],
}

impl Table<'_> {
    /// "until ... no whole row fits"
    fn is_full(&self) -> bool {
        self.rows >= self.out.len() / self.row_length
    }

    /// "It writes rows of k + 1 numbers (sequence number, then starts)."
    fn write(&mut self, row: &[u32]) {
        let here = self.rows * self.row_length;
        if let Some(place) = self.out.get_mut(here..here + row.len()) {
            place.copy_from_slice(row);
            self.rows += 1;
        }
    }
}

/// "With all later starts under it before the next first start, and so on
/// down the components." The row so far ends with the previous component's
/// start; the component now at hand may start from `first` to `last`.
/// Rows before the first wanted one are passed over by their number.
fn descend(
    pieces: &[Piece],
    ways: &[Ways],
    (first, last): (Position, Position),
    row: &mut Vec<u32>,
    table: &mut Table,
) {
    let (Some((piece, later_pieces)), Some((here, later_ways))) =
        (pieces.split_first(), ways.split_first())
    else {
        return;
    };
    for start in (first.0..=last.0).map(Position) {
        if table.is_full() {
            return;
        }
        let rows_under_it = here.at(start);
        if table.skip >= rows_under_it {
            table.skip -= rows_under_it;
            continue;
        }
        row.push(start.0);
        match later_pieces.first() {
            Some(next) => {
                let next_range = next_starts(start, piece, next);
                descend(later_pieces, later_ways, next_range, row, table);
            }
            None => table.write(row),
        }
        row.pop();
    }
}
