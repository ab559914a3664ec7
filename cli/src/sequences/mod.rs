//! The sequences of a FASTA file, read by the library, with each record's
//! name, and where a byte stands that it refuses.

mod command;
mod foreign;
mod gzip;
mod hints;
mod input;
mod lines;
mod look;
mod refused;

use crate::counted::of;
use crate::failure::{Answer, Failure};
use crate::say::say;
use crate::sum::Sum;
use command::Names;
pub use input::MOST_BYTES;
use library::{Reader, Refusal};
use std::ops::Range;
use std::path::Path;

/// Sequences as they were read.
#[derive(Debug)]
pub struct Sequences {
    /// What the file is called in messages.
    pub called: String,
    /// The file's bytes: unpacked, and with `--upper` in upper case.
    pub file: Vec<u8>,
    /// The letters of all records, joined.
    pub letters: Vec<u8>,
    /// The number of letters of each.
    pub lengths: Vec<u32>,
    /// Where each record's name stands in the file.
    names: Vec<Range<usize>>,
}

/// Reads what a user passes: a file whole, or standard input for `-`, packed by
/// gzip or not. `upper` has lower-case letters taken as upper-case ones. What
/// may not be what the user takes it for is told on standard error.
pub fn read(path: &Path, upper: bool) -> Answer<Sequences> {
    let input = input::read(path)?;
    let names = || Names::of(path, input.plain);
    let (called, mut bytes) = (input.called, input.bytes);
    let raised = if upper { lines::raise(&mut bytes) } else { 0 };
    let sequences = Sequences::made(called, bytes, |file, refusal| {
        hints::of(file, refusal, &names())
    })?;
    if let Some(words) = look::returns(&sequences) {
        return Err(Failure::refused(words).and(names().put(look::CONVERT)));
    }
    let called = &sequences.called;
    if raised > 0 {
        say(&format!(
            "tulfasheq: {called}: {} {} taken as upper-case ones",
            of(raised, "lower-case letter"),
            if raised == 1 { "is" } else { "are" }
        ));
    }
    let warnings = [look::empty(&sequences), look::alike(&sequences)];
    for warning in warnings.iter().flatten() {
        say(&format!("tulfasheq: {called}: {warning}"));
    }
    Ok(sequences)
}

impl Sequences {
    /// The records of a file's bytes, as a job kept them.
    pub fn new(called: String, file: Vec<u8>) -> Answer<Sequences> {
        Sequences::made(called, file, |_, _| None)
    }

    /// The records of a file's bytes. Of what is refused, `hint` says what can
    /// be done.
    fn made(
        called: String,
        file: Vec<u8>,
        hint: impl Fn(&[u8], Refusal) -> Option<String>,
    ) -> Answer<Sequences> {
        let mut letters = vec![0; file.len()];
        // A record has a `>` of its own.
        let mut lengths = vec![0; file.split(|b| *b == b'>').count() - 1];
        let (mut used, mut count) = (0, 0);
        let mut names = Vec::new();
        let mut reader = Reader::new(&file);
        loop {
            match reader.next(&mut letters, &mut used, &mut lengths, &mut count) {
                Ok(Some(name)) => {
                    // It is a part of the file.
                    let start = name.as_ptr() as usize - file.as_ptr() as usize;
                    names.push(start..start + name.len());
                }
                Ok(None) => break,
                Err(refusal) => {
                    let failure = Failure::refused(refused::told(&called, &file, refusal));
                    return Err(match hint(&file, refusal) {
                        Some(hint) => failure.and(hint),
                        None => failure,
                    });
                }
            }
        }
        letters.truncate(used as usize);
        lengths.truncate(count as usize);
        Ok(Sequences {
            called,
            file,
            letters,
            lengths,
            names,
        })
    }

    /// How many sequences there are.
    pub fn count(&self) -> u64 {
        self.lengths.len() as u64
    }

    /// The sum of the sequences: of the letters of each, and a line end behind
    /// them. Names and the lines of the file do not count.
    pub fn sum(&self) -> Sum {
        let mut rest = &self.letters[..];
        let mut sum = Sum::NONE;
        for length in &self.lengths {
            let (letters, after) = rest.split_at(*length as usize);
            sum = sum.and(letters).and(b"\n");
            rest = after;
        }
        sum
    }

    /// The name of a record, by its sequence's number, from 1.
    pub fn name(&self, number: u32) -> &[u8] {
        &self.file[self.names[number as usize - 1].clone()]
    }
}
