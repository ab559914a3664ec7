//! The motifs of a table that a search wrote.

use super::shape;
use crate::counted::{grouped, of};
use crate::failure::{Answer, Failure};
use crate::refusals;
use crate::sum::Words;
use crate::table::End;
use crate::template::{Component, Template};
use std::fs::File;
use std::io::{self, BufRead, BufReader, Read};
use std::path::Path;
use std::str::from_utf8;

/// The most bytes of a line: far more than a search writes in one. A file may
/// have no line ends, or never end.
const MOST_LINE: u64 = 65_536;

/// The column that tells how often a motif occurs.
const COUNTS: &str = "occurrences";

/// What a table holds.
pub struct Table {
    pub motifs: Vec<u64>,
    /// How often each occurs, where that was to be read and the table tells it.
    pub counts: Option<Vec<u64>>,
    /// The most letters for several bases that a motif has in each component.
    pub several: Vec<u64>,
    /// The last line, of a table that is whole: one that ends with it, and has
    /// as many rows as it says.
    pub end: Option<End>,
    /// Whether the last line has another sum than that of its header and rows.
    pub changed: bool,
}

/// The header of a table: how many columns there are, and which tells the
/// counts.
struct Header {
    columns: usize,
    counts: Option<usize>,
}

/// Reads the motifs of a file, or of standard input for `-`.
pub fn read_file(path: &Path, template: &Template, counted: bool) -> Answer<Table> {
    if path == Path::new("-") {
        return read(&mut io::stdin().lock(), "standard input", template, counted);
    }
    let called = path.display().to_string();
    let file = File::open(path).map_err(|error| Failure::io(&called, &error))?;
    read(&mut BufReader::new(file), &called, template, counted)
}

/// Reads the motifs of a table, and how often they occur where that is
/// `counted`. A line that cannot be read is refused.
pub fn read(
    lines: &mut dyn BufRead,
    called: &str,
    template: &Template,
    counted: bool,
) -> Answer<Table> {
    let mut header: Option<Header> = None;
    let mut table = Table {
        motifs: Vec::new(),
        counts: counted.then(Vec::new),
        several: vec![0; template.components.len()],
        end: None,
        changed: false,
    };
    let mut sum = Words::none();
    let mut bytes = Vec::new();
    for number in 1u64.. {
        bytes.clear();
        let read = lines
            .take(MOST_LINE + 1)
            .read_until(b'\n', &mut bytes)
            .map_err(|error| Failure::io(called, &error))?;
        if read == 0 {
            break;
        }
        let wrong = |why: &str| Failure::refused(format!("{called}:{number}: {why}"));
        if read as u64 > MOST_LINE {
            return Err(wrong(&format!(
                "the line is longer than {} bytes",
                grouped(MOST_LINE)
            )));
        }
        let line = from_utf8(&bytes).map_err(|_| wrong("the line is no text"))?;
        let line = line.strip_suffix('\n').unwrap_or(line);
        let line = line.strip_suffix('\r').unwrap_or(line);
        table.end = End::read(line).filter(|end| end.rows == table.motifs.len() as u64);
        let told = table.end.as_ref().and_then(|end| end.table);
        table.changed = told.is_some_and(|told| told != sum.sum());
        if line.starts_with('#') {
            continue;
        }
        // Other line ends, and comments, leave a table what it is.
        sum.and(line.as_bytes());
        sum.and(b"\n");
        let mut columns = line.split('\t');
        let found = columns.clone().count();
        let first = columns.next().unwrap_or(line);
        match &header {
            None if first == "motif" => {
                header = Some(Header {
                    columns: found,
                    counts: line.split('\t').position(|column| column == COUNTS),
                });
            }
            None => {
                return Err(wrong(
                    "the first line is no header, which begins with motif",
                ))
            }
            Some(header) if found != header.columns => {
                return Err(wrong(&format!(
                    "the line has {}, and the header has {}",
                    of(found as u64, "column"),
                    header.columns
                )))
            }
            Some(header) => {
                let several = shape::several(template, first);
                let here = || format!("{called}:{number}");
                let motif = motif(template, first, &several, here)?;
                let count = header.counts.and_then(|at| line.split('\t').nth(at));
                table.add(motif, &several, count);
            }
        }
    }
    match header {
        Some(_) => Ok(table),
        None => Err(Failure::refused(format!("{called}: it holds no table"))),
    }
}

/// The number of a motif that is one of the template's, and has so many
/// letters for several bases in each component. Where these are beyond an
/// allowance the library refuses it, which is asked over one empty sequence:
/// only then, for to ask of each motif takes longer than all else here.
pub fn motif(
    template: &Template,
    text: &str,
    several: &[u64],
    here: impl Fn() -> String,
) -> Answer<u64> {
    let motif = template
        .number(text)
        .map_err(|why| Failure::refused(format!("{}: {why}", here())))?;
    let beyond = |(count, component): (&u64, &Component)| *count > component.allowance;
    if several.iter().zip(&template.components).any(beyond) {
        library::recover(&[], &[0], template.lent(), motif, 0, &mut [])
            .map_err(|refusal| refusals::of_motif(refusal, template, text, &here()))?;
    }
    Ok(motif)
}

impl Table {
    /// Adds a row: its motif, how many of its letters stand for several bases,
    /// and how often it says that it occurs. A count that is none leaves the
    /// table without.
    fn add(&mut self, motif: u64, several: &[u64], count: Option<&str>) {
        self.motifs.push(motif);
        for (most, here) in self.several.iter_mut().zip(several) {
            *most = (*most).max(*here);
        }
        if let Some(counts) = &mut self.counts {
            match count.and_then(|count| count.parse().ok()) {
                Some(count) => counts.push(count),
                None => self.counts = None,
            }
        }
    }

    /// The table's motifs and the template that they need, where they were
    /// read with all allowances that there can be.
    pub fn narrowed(&mut self, template: &Template) -> Answer<Template> {
        let needed = shape::needed(template, &self.several)?;
        if !needed.mixed {
            // Digits of four bits become those of two.
            for motif in &mut self.motifs {
                let digit = |at: u64| *motif >> (4 * at) & 3;
                *motif = (0..template.letters())
                    .rev()
                    .fold(0, |n, at| n << 2 | digit(at));
            }
        }
        Ok(needed)
    }
}
