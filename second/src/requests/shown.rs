//! Requests as they are shown beside a difference.

use super::request::{Kind, Request, Set, Value};
use std::fmt;

/// A list, cut where it grows long.
fn listed<T: fmt::Debug>(list: &[T]) -> String {
    const SHOWN: usize = 40;
    if list.len() <= SHOWN {
        format!("{list:?}")
    } else {
        format!("{:?} and so on, {} in all", &list[..SHOWN], list.len())
    }
}

impl fmt::Display for Set {
    fn fmt(&self, out: &mut fmt::Formatter) -> fmt::Result {
        const SHOWN: usize = 2_000;
        let shown = &self.letters[..self.letters.len().min(SHOWN)];
        writeln!(out, "  lengths {}", listed(&self.lengths))?;
        writeln!(
            out,
            "  {} letters: {}",
            self.letters.len(),
            String::from_utf8_lossy(shown)
        )
    }
}

impl fmt::Display for Value {
    fn fmt(&self, out: &mut fmt::Formatter) -> fmt::Result {
        write!(
            out,
            "  {:?} template of {} components:",
            self.profile, self.count
        )?;
        for slot in &self.slots {
            write!(out, " {}[{},{}]", slot.length, slot.low, slot.high)?;
            write!(out, "/{}", slot.allowance)?;
        }
        writeln!(
            out,
            "\n  quorum {}, of {} sequences and {} letters, place {} number {} ({})",
            self.quorum,
            self.sequences,
            self.letters,
            self.place,
            self.number,
            self.place_letters()
        )
    }
}

impl fmt::Display for Request {
    fn fmt(&self, out: &mut fmt::Formatter) -> fmt::Result {
        writeln!(out, "  {:?}", self.kind)?;
        if self.kind == Kind::Fasta {
            let (file, letters) = (&self.set.letters, &self.saved);
            writeln!(out, "  {} bytes: {}", file.len(), file.escape_ascii())?;
            writeln!(out, "  cursor {}", self.at)?;
            writeln!(out, "  {} used of letters {}", self.used, listed(letters))?;
            return writeln!(out, "  {} used of rows {}", self.count, listed(&self.rows));
        }
        if self.kind == Kind::Join {
            writeln!(out, "  first list {}", listed(&self.set.lengths))?;
            writeln!(out, "  second list {}", listed(&self.partners))?;
            writeln!(
                out,
                "  head {}, range {}, {}",
                self.head, self.low, self.high
            )?;
            return writeln!(out, "  table {}", listed(&self.rows));
        }
        write!(out, "{}{}", self.set, self.value)?;
        if let Some(number) = self.no_profile {
            writeln!(out, "  {number} passed for the profile")?;
        }
        match self.kind {
            Kind::Leg => writeln!(
                out,
                "  budget {}, tables of {}, {} and {}, from bytes {:02x?}",
                self.budget,
                self.motifs.len(),
                self.supports.len(),
                self.weights.len(),
                self.saved
            ),
            Kind::Begin | Kind::Save | Kind::Restore => {
                writeln!(out, "  {} bytes {:02x?}", self.saved.len(), self.saved)
            }
            Kind::Recover => writeln!(
                out,
                "  motif {}, first row {}, buffer of {}",
                self.motif,
                self.first_row,
                self.rows.len()
            ),
            Kind::Join | Kind::Fasta => Ok(()),
        }
    }
}
