//! Tab-separated lines under a header: the motif, the record's name, the
//! sequence's number, and the start of each component, all from 1.

use super::format::{escaped, Occurrence};
use crate::digits::number;
use std::io::Write;

/// The first line.
pub fn header(components: usize, to: &mut Vec<u8>) {
    to.extend_from_slice(b"motif\tname\tsequence");
    for component in 1..=components {
        // To write to memory does not fail.
        let _ = write!(to, "\tstart{component}");
    }
    to.push(b'\n');
}

/// The line of an occurrence. A name may have control characters, which could
/// end a line or steer a terminal: they are escaped as GFF3 does it, and so is
/// the percent sign; all other bytes stand as they are.
pub fn row(occurrence: &Occurrence, to: &mut Vec<u8>) {
    to.extend_from_slice(occurrence.motif);
    to.push(b'\t');
    escaped(occurrence.name, |b| !b.is_ascii_control() && b != b'%', to);
    number(b'\t', occurrence.sequence.into(), to);
    for start in occurrence.starts {
        number(b'\t', (*start).into(), to);
    }
    to.push(b'\n');
}

#[cfg(test)]
mod tests {
    use super::super::format::tried;
    use super::{header, row};

    #[test]
    fn a_line_has_all_starts() {
        let mut lines = Vec::new();
        header(2, &mut lines);
        tried(b"\xff>", 9, |occurrence| row(occurrence, &mut lines));
        assert_eq!(
            lines,
            b"motif\tname\tsequence\tstart1\tstart2\nAC[0,3]GTA\t\xff>\t2\t5\t9\n"
        );
    }

    #[test]
    fn control_characters_of_a_name_are_escaped() {
        let mut lines = Vec::new();
        let name = b"a;\r\x00\x1b[2J\x7f\x80%=";
        tried(name, 9, |occurrence| row(occurrence, &mut lines));
        let name = b"\ta;%0D%00%1B[2J%7F\x80%25=\t";
        assert!(lines.windows(name.len()).any(|part| part == name));
    }
}
