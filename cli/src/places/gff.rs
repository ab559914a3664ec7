//! GFF3: a line for an occurrence and, where the template has several
//! components, one for each of them; from 1, ends included.

use super::format::{escaped, Occurrence};
use crate::digits::number;
use crate::sequences::Sequences;
use crate::sum::Sum;
use std::collections::HashMap;
use std::io::Write;

/// The first lines: the version, and the letters of each record, from 1 on.
/// An empty record has none, and where several have one name the longest
/// stands for all, since a reader takes one line for a name.
pub fn header(sequences: &Sequences, to: &mut Vec<u8>) {
    to.extend_from_slice(b"##gff-version 3\n");
    let named = || {
        (1u32..)
            .zip(&sequences.lengths)
            .map(|(number, length)| (sequences.name(number), *length))
    };
    let mut longest: HashMap<&[u8], u32> = HashMap::new();
    for (name, length) in named() {
        let most = longest.entry(name).or_default();
        *most = length.max(*most);
    }
    for (name, _) in named() {
        if let Some(length) = longest.remove(name).filter(|length| *length > 0) {
            to.extend_from_slice(b"##sequence-region ");
            escaped(name, in_name, to);
            // To write to memory does not fail.
            let _ = writeln!(to, " 1 {length}");
        }
    }
}

/// Whether a record's name can be a line's first column, or why not. Any byte
/// can be escaped, but an empty column is none.
pub fn takes(name: &[u8]) -> Result<(), String> {
    if name.is_empty() {
        return Err("it is empty".to_string());
    }
    Ok(())
}

/// The lines of an occurrence. The sum of its list is a part of its ID, so
/// that files of several lists can be joined.
pub fn row(occurrence: &Occurrence, list: Sum, to: &mut Vec<u8>) {
    let row = occurrence.row;
    line(occurrence, "nucleotide_motif", occurrence.whole(), to);
    let _ = write!(to, "ID=o{list}.{row};Name=");
    escaped(occurrence.motif, in_value, to);
    to.push(b'\n');
    if occurrence.starts.len() > 1 {
        for part in occurrence.parts() {
            line(occurrence, "DNA_motif", part, to);
            let _ = writeln!(to, "Parent=o{list}.{row}");
        }
    }
}

/// A line up to its attributes.
fn line(occurrence: &Occurrence, kind: &str, (first, last): (u64, u64), to: &mut Vec<u8>) {
    escaped(occurrence.name, in_name, to);
    to.extend_from_slice(b"\ttulfasheq\t");
    to.extend_from_slice(kind.as_bytes());
    number(b'\t', first, to);
    number(b'\t', last, to);
    to.extend_from_slice(b"\t.\t+\t.\t");
}

/// Whether a byte may stand in a line's first column.
fn in_name(byte: u8) -> bool {
    byte.is_ascii_alphanumeric() || b".:^*$@!+_?-|".contains(&byte)
}

/// Whether a byte may stand in an attribute's value.
fn in_value(byte: u8) -> bool {
    !byte.is_ascii_control() && !b";=&,%".contains(&byte)
}

#[cfg(test)]
mod tests {
    use super::super::format::{escaped, tried};
    use super::{header, in_value, row, takes};
    use crate::sequences::Sequences;
    use crate::sum::Sum;

    #[test]
    fn a_component_has_its_occurrence_for_parent() {
        let mut lines = Vec::new();
        tried(b">a,\xff.1", 9, |occurrence| {
            row(occurrence, Sum(0xa1), &mut lines);
        });
        let lines = String::from_utf8(lines).expect("text");
        assert_eq!(
            lines.replace("%3Ea%2C%FF.1\ttulfasheq\t", ""),
            "nucleotide_motif\t5\t11\t.\t+\t.\tID=o00000000000000a1.17;Name=AC[0%2C3]GTA\n\
             DNA_motif\t5\t6\t.\t+\t.\tParent=o00000000000000a1.17\n\
             DNA_motif\t9\t11\t.\t+\t.\tParent=o00000000000000a1.17\n"
        );
    }

    #[test]
    fn a_name_has_one_region_and_an_empty_record_none() {
        let file = b">b\nAC\n>a% x\nA\n>\xff\n>b\nACGT\n>c\n\n>b\nA\n>>\nAA\n";
        let sequences = Sequences::new("file".to_string(), file.to_vec()).expect("sequences");
        let mut lines = Vec::new();
        header(&sequences, &mut lines);
        assert_eq!(
            String::from_utf8_lossy(&lines),
            "##gff-version 3\n##sequence-region b 1 4\n\
             ##sequence-region a%25 1 1\n##sequence-region %3E 1 2\n"
        );
    }

    #[test]
    fn what_means_something_in_a_value_is_escaped() {
        let mut value = Vec::new();
        escaped(b"a b;=&,%\t\n\x7f[", in_value, &mut value);
        assert_eq!(value, b"a b%3B%3D%26%2C%25%09%0A%7F[");
    }

    #[test]
    fn any_name_that_is_not_empty_can_stand() {
        assert!(takes(b"").is_err());
        assert_eq!(takes(b"\r"), Ok(()));
    }
}
