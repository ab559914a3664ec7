//! Writes rows.

use super::occurrences::Occurrences;
use super::{Format, How};
use crate::counted::of;
use crate::failure::{Answer, Failure};
use crate::out::Open;
use crate::progress::Progress;
use crate::say::say;
use crate::sequences::Sequences;
use crate::sum::Sum;
use std::io::{self, IsTerminal};
use std::path::PathBuf;

/// So many bytes are written at once, or a few more.
const WRITTEN: usize = 1 << 16;

impl How {
    /// Checks, before anything long is done, that there is somewhere to write
    /// to that is none of the files which are read.
    pub fn check(&self, read: &[PathBuf]) -> Answer<()> {
        self.out.spare(read)?;
        self.out.check()
    }

    /// Writes the rows that are asked for. Where they are made from something
    /// `unfinished`, that is said first, and the status tells it at the end.
    pub fn write(&self, all: &Occurrences, unfinished: &str) -> Answer<()> {
        self.check_names(all.sequences)?;
        if !unfinished.is_empty() {
            say(&format!("tulfasheq: {unfinished}"));
        }
        self.write_rows(all)?;
        if unfinished.is_empty() {
            return Ok(());
        }
        Err(Failure::unfinished(
            "what was written is whole, but what it was made from is not (status 8)",
        ))
    }

    /// Writes the rows. Nothing is opened before it is known that the list has
    /// the first.
    fn write_rows(&self, all: &Occurrences) -> Answer<()> {
        let motifs = all.motifs.len() as u64;
        // Where rows come to the same terminal, they are what shows how far
        // it is.
        let quiet = self.quiet || self.out.is_terminal() || motifs == 1;
        let mut progress = Progress::new(quiet);
        let list = match self.format {
            Format::Gff => all.sum(),
            Format::Bed | Format::Tsv => Sum::NONE,
        };
        let mut lines = Vec::new();
        self.format.header(all.template, all.sequences, &mut lines);
        let (mut out, mut rows) = (None, 0u64);
        all.pages(
            self.from,
            self.rows.unwrap_or(u64::MAX),
            &mut progress,
            |page| {
                for occurrence in page {
                    self.format.row(&occurrence, list, &mut lines);
                    rows += 1;
                }
                if lines.len() < WRITTEN {
                    return Ok(());
                }
                let open: &mut Open = match &mut out {
                    Some(open) => open,
                    None => out.insert(self.out.open()?),
                };
                open.write(&lines)?;
                lines.clear();
                Ok(())
            },
        )?;
        let mut out = match out {
            Some(open) => open,
            None => self.out.open()?,
        };
        out.write(&lines)?;
        out.close()?;
        drop(progress);
        if !quiet && io::stderr().is_terminal() {
            say(&format!("{} of {}", of(rows, "row"), of(motifs, "motif")));
        }
        Ok(())
    }

    /// Every record's name must be one that the format can hold, also where no
    /// motif occurs, so that this does not hang on the motif.
    fn check_names(&self, sequences: &Sequences) -> Answer<()> {
        for number in 1..=sequences.lengths.len() as u32 {
            if let Err(why) = self.format.takes(sequences.name(number)) {
                return Err(Failure::refused(format!(
                    "{}: the name of record {number} cannot stand in {}: {why}\nThe names of all records are checked first, also where no motif occurs. --tsv takes any name.",
                    sequences.called,
                    self.format.called(),
                )));
            }
        }
        Ok(())
    }
}
