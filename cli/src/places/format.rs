//! The formats in which an occurrence can be written.

use super::{bed, gff, tsv};
use crate::sequences::Sequences;
use crate::sum::Sum;
use crate::template::{Component, Template};
use std::io::Write;

/// How an occurrence is written.
#[derive(Clone, Copy, Debug, PartialEq, Eq)]
pub enum Format {
    Bed,
    Gff,
    Tsv,
}

/// An occurrence of a motif.
pub struct Occurrence<'a> {
    /// Its row in the whole list, from 0.
    pub row: u128,
    /// The motif, as search lists it.
    pub motif: &'a [u8],
    /// The name of the record.
    pub name: &'a [u8],
    /// The sequence's number, from 1.
    pub sequence: u32,
    /// The first letter of each component, from 1.
    pub starts: &'a [u32],
    /// The template's components.
    pub components: &'a [Component],
}

impl Occurrence<'_> {
    /// The first and the last letter of each component, from 1.
    pub fn parts(&self) -> impl Iterator<Item = (u64, u64)> + '_ {
        self.starts
            .iter()
            .zip(self.components)
            .map(|(start, component)| {
                let start = u64::from(*start);
                (start, start + component.length - 1)
            })
    }

    /// The first letter of the first component and the last of the last one.
    pub fn whole(&self) -> (u64, u64) {
        let first = self.parts().next().unwrap_or_default();
        let last = self.parts().last().unwrap_or_default();
        (first.0, last.1)
    }
}

impl Format {
    /// What it is called.
    pub fn called(self) -> &'static str {
        match self {
            Format::Bed => "BED",
            Format::Gff => "GFF3",
            Format::Tsv => "TSV",
        }
    }

    /// Whether a record's name can stand in it, or why not.
    pub fn takes(self, name: &[u8]) -> Result<(), String> {
        match self {
            Format::Bed => bed::takes(name),
            Format::Gff => gff::takes(name),
            Format::Tsv => Ok(()),
        }
    }

    /// What stands before the rows.
    pub fn header(self, template: &Template, sequences: &Sequences, to: &mut Vec<u8>) {
        match self {
            Format::Bed => {}
            Format::Gff => gff::header(sequences, to),
            Format::Tsv => tsv::header(template.components.len(), to),
        }
    }

    /// The lines of one occurrence of a list that has this sum.
    pub fn row(self, occurrence: &Occurrence, list: Sum, to: &mut Vec<u8>) {
        match self {
            Format::Bed => bed::row(occurrence, to),
            Format::Gff => gff::row(occurrence, list, to),
            Format::Tsv => tsv::row(occurrence, to),
        }
    }
}

/// Bytes with a percent sign and two digits for each that may not stand.
pub fn escaped(bytes: &[u8], stands: impl Fn(u8) -> bool, to: &mut Vec<u8>) {
    for byte in bytes {
        if stands(*byte) {
            to.push(*byte);
        } else {
            // To write to memory does not fail.
            let _ = write!(to, "%{byte:02X}");
        }
    }
}

/// An occurrence to try the formats on: AC[0,3]GTA, at 5 and at 7 or later.
#[cfg(test)]
pub fn tried(name: &[u8], second: u32, try_it: impl FnOnce(&Occurrence)) {
    let template = Template::read("NN[0,3]NNN", None).expect("a template");
    try_it(&Occurrence {
        row: 17,
        motif: b"AC[0,3]GTA",
        name,
        sequence: 2,
        starts: &[5, second],
        components: &template.components,
    });
}
