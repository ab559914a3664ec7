//! What is read without a refusal, and may not be what the user takes it for.

use super::{lines, Sequences};
use crate::counted::{grouped, of};
use library::limits;
use std::collections::HashMap;

/// How many records of a name are told by their numbers.
const TOLD: usize = 10;

/// How the lines of a file are made to end as they should.
pub const CONVERT: &str = "tr '\\r' '\\n' <FILE >NEW.fa makes it one that can be read.";

/// Why a file is refused that has lines which end in byte 13 alone: the library
/// reads such lines as a part of a name, and letters would be lost without a
/// word.
pub fn returns(sequences: &Sequences) -> Option<String> {
    let file = &sequences.file;
    let offset = lines::all(file)
        .filter(|(_, line)| lines::is_header(line))
        .find_map(|(start, line)| {
            let end = line.iter().rposition(|b| *b != b'\r')?;
            let at = line[..end].iter().position(|b| *b == b'\r')?;
            Some(start + at)
        })?;
    let (line, column) = lines::place(file, offset);
    Some(format!(
        "{}:{line}:{column}: byte 13 within a name: lines that end in byte 13 alone are not read as lines",
        sequences.called
    ))
}

/// Warns of sequences without a letter.
pub fn empty(sequences: &Sequences) -> Option<String> {
    let all = sequences.count();
    let empty = sequences.lengths.iter().filter(|l| **l == 0).count() as u64;
    match empty {
        0 => None,
        1 if all == 1 => Some("its one sequence is empty: it holds no motif".to_string()),
        _ if empty == all => Some(format!(
            "all of its {} are empty: they hold no motif",
            of(all, "sequence")
        )),
        1 => Some(format!("1 of its {} is empty", of(all, "sequence"))),
        _ => Some(format!(
            "{} of its {} are empty",
            grouped(empty),
            of(all, "sequence")
        )),
    }
}

/// Warns of records with the same name, which tables do not tell apart.
pub fn alike(sequences: &Sequences) -> Option<String> {
    // More are refused, and their names are no matter then.
    if sequences.count() > limits::SEQUENCES as u64 {
        return None;
    }
    let mut records: HashMap<&[u8], Vec<u64>> = HashMap::new();
    for number in 1..=sequences.count() {
        let name = sequences.name(number as u32);
        records.entry(name).or_default().push(number);
    }
    let several = || records.iter().filter(|(_, numbers)| numbers.len() > 1);
    let (name, numbers) = several().min_by_key(|(_, numbers)| numbers[0])?;
    let count = several().count() as u64;
    let name = match *name {
        b"" => "the empty one".to_string(),
        name => lines::told(name),
    };
    let told: Vec<String> = numbers.iter().take(TOLD).map(|n| grouped(*n)).collect();
    let left = match numbers.len().saturating_sub(TOLD) as u64 {
        0 => String::new(),
        left => format!(" and {} more", grouped(left)),
    };
    let which = match count {
        1 => "a name stands for several records:".to_string(),
        _ => format!(
            "{} stand for several records each; the first is",
            of(count, "name")
        ),
    };
    Some(format!(
        "{which} {name}, of records {}{left}",
        told.join(", ")
    ))
}
