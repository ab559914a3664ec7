//! "A reader over the lent file, handing out one record after another."
//!
//! The whole of what is left of a file is cut into lines, and the lines are
//! gathered to records, at every call anew; the first record is then handed
//! out.

use crate::refusal::Refusal;
use crate::sequences::is_letter;
use std::ops::Range;

/// A file that the program `lines` can't hold is "above 1 MiB".
const MOST_BYTES: usize = 1_048_576;

/// A record: where it begins, its name "as a part of the file", and the
/// offset of every byte of its letter lines.
#[derive(Clone, Debug, PartialEq, Eq)]
pub struct Record {
    /// The offset of its `>`.
    pub begins: usize,
    /// The offsets of its name.
    pub name: Range<usize>,
    /// The offsets of its letters, rising.
    pub letters: Vec<usize>,
}

impl Record {
    /// "the letters .. joined"
    pub fn joined(&self, file: &[u8]) -> Vec<u8> {
        self.letters.iter().map(|at| file[*at]).collect()
    }

    /// "then 4 with the file offset": the first byte that is no letter.
    fn no_letter(&self, file: &[u8]) -> Option<usize> {
        let mut letters = self.letters.iter();
        letters.find(|at| !is_letter(file[**at])).copied()
    }
}

/// "Lines end in byte 10, optionally after byte 13; the file's end ends the
/// last." Each is told by its offsets, without its end. A 13 that no 10
/// follows is a byte like others.
fn lines(file: &[u8]) -> Vec<Range<usize>> {
    let mut lines = Vec::new();
    let mut start = 0;
    for piece in file.split_inclusive(|byte| *byte == 10) {
        let ended = [&[13, 10][..], &[10]];
        let end = ended.iter().find(|end| piece.ends_with(end));
        let bytes = piece.len() - end.map_or(0, |end| end.len());
        lines.push(start..start + bytes);
        start += piece.len();
    }
    lines
}

/// "the name (from after `>` to the first space, tab or line end)"
fn name(file: &[u8], line: &Range<usize>) -> Range<usize> {
    let start = line.start + 1;
    let blank = |at: &usize| matches!(file[*at], 9 | 32);
    start..(start..line.end).find(blank).unwrap_or(line.end)
}

/// The records of a file, in file order. `>` begins one as the first byte of
/// a line. "Empty lines are skipped. A record with no letters is an empty
/// sequence." 19: "text before the first `>`".
pub fn records(file: &[u8]) -> Result<Vec<Record>, Refusal> {
    let mut records: Vec<Record> = Vec::new();
    for line in lines(file).into_iter().filter(|line| !line.is_empty()) {
        if file[line.start] == b'>' {
            records.push(Record {
                begins: line.start,
                name: name(file, &line),
                letters: Vec::new(),
            });
        } else {
            match records.last_mut() {
                Some(record) => record.letters.extend(line),
                None => return Err(Refusal::plain(Refusal::TEXT_BEFORE)),
            }
        }
    }
    Ok(records)
}

/// What a call hands out, and where the reader stands then.
#[derive(Clone, Debug, PartialEq, Eq)]
pub struct Handed {
    /// The offsets of the record's name.
    pub name: Range<usize>,
    /// How many letters it has.
    pub letters: usize,
    /// The next record's `>`, or the file's end.
    pub at: usize,
}

/// "One call hands out the next record": the first from the cursor on, its
/// letters written behind the `used` that the buffer holds, and their number
/// behind the `count` rows that the table holds. None at the file's end.
///
/// "Refusals: 19 text before the first `>`, 20 no room for the next record
/// (every byte of its letter lines counts), then 4 with the file offset." A
/// call that hands out nothing writes nothing.
pub fn next_record(
    file: &[u8],
    at: usize,
    letters: &mut [u8],
    used: usize,
    lengths: &mut [u32],
    count: usize,
) -> Result<Option<Handed>, Refusal> {
    // What lies before the cursor is as if it were not there.
    let rest = file.get(at..).unwrap_or_default();
    let records = records(rest)?;
    let Some(record) = records.first() else {
        return Ok(None);
    };
    let no_room = Refusal::plain(Refusal::NO_ROOM);
    let size = record.letters.len();
    let left = letters.get_mut(used..).ok_or(no_room)?;
    let place = left.get_mut(..size).ok_or(no_room)?;
    let row = lengths.get_mut(count).ok_or(no_room)?;
    let length = u32::try_from(size).map_err(|_| no_room)?;
    if let Some(offset) = record.no_letter(rest) {
        return Err(Refusal::at(Refusal::NO_LETTER, (at + offset) as u64));
    }
    place.copy_from_slice(&record.joined(rest));
    *row = length;
    let next = records.get(1).map_or(rest.len(), |next| next.begins);
    Ok(Some(Handed {
        name: at + record.name.start..at + record.name.end,
        letters: size,
        at: at + next,
    }))
}

/// All that the program `lines` prints for a file: "one sequence a line, each
/// ended by byte 10, or only `refused`, number, place (a file that it can't
/// hold, above 1 MiB, is 20)".
pub fn lines_text(file: &[u8]) -> Vec<u8> {
    match sequences(file) {
        Ok(sequences) => sequences
            .into_iter()
            .flat_map(|letters| [letters, vec![10]].concat())
            .collect(),
        Err(refusal) => format!("refused {} {}\n", refusal.number, refusal.place).into_bytes(),
    }
}

/// The letters of each record of a file that the program can hold.
fn sequences(file: &[u8]) -> Result<Vec<Vec<u8>>, Refusal> {
    if file.len() > MOST_BYTES {
        return Err(Refusal::plain(Refusal::NO_ROOM));
    }
    let records = records(file)?;
    match records.iter().find_map(|record| record.no_letter(file)) {
        Some(offset) => Err(Refusal::at(Refusal::NO_LETTER, offset as u64)),
        None => Ok(records.iter().map(|record| record.joined(file)).collect()),
    }
}
