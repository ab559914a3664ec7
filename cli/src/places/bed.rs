//! BED with twelve columns: starts count from 0 and ends are not included;
//! the components are the blocks.

use super::format::Occurrence;
use crate::digits::number;

/// The most bytes of a name.
const NAME: usize = 255;

/// What begins a line that is no row. bedtools takes every line that begins so
/// for one, `tracks` and `browser1` too, and leaves it out without a word.
const HEADERS: [&[u8]; 2] = [b"browser", b"track"];

/// Whether a record's name can be a row's first column, or why not. BED 1.0
/// wants letters, digits and _ alone, but a name must be the one that the
/// genome has, such as `NC_000913.3`, so that it can be looked up there.
pub fn takes(name: &[u8]) -> Result<(), String> {
    if name.is_empty() {
        return Err("it is empty".to_string());
    }
    if name.len() > NAME {
        return Err(format!(
            "it has {} bytes, and {NAME} are the most",
            name.len()
        ));
    }
    if let Some(byte) = name.iter().find(|b| **b == b' ' || b.is_ascii_control()) {
        return Err(format!(
            "it has byte {byte}, which is a space or a control character"
        ));
    }
    if name.starts_with(b"#") {
        return Err("it begins with #, as comments do".to_string());
    }
    if let Some(word) = HEADERS.iter().find(|word| name.starts_with(word)) {
        return Err(format!(
            "it begins with {}, as headers do",
            String::from_utf8_lossy(word)
        ));
    }
    Ok(())
}

/// The line of an occurrence.
pub fn row(occurrence: &Occurrence, to: &mut Vec<u8>) {
    let (first, end) = occurrence.whole();
    let start = first - 1;
    to.extend_from_slice(occurrence.name);
    number(b'\t', start, to);
    number(b'\t', end, to);
    to.push(b'\t');
    to.extend_from_slice(occurrence.motif);
    to.extend_from_slice(b"\t0\t+");
    number(b'\t', start, to);
    number(b'\t', end, to);
    to.extend_from_slice(b"\t0");
    number(b'\t', occurrence.starts.len() as u64, to);
    let sizes = occurrence.parts().map(|(first, last)| last + 1 - first);
    listed(sizes, to);
    let starts = occurrence.parts().map(|(first, _)| first - 1 - start);
    listed(starts, to);
    to.push(b'\n');
}

/// A column of numbers with commas between them.
fn listed(numbers: impl Iterator<Item = u64>, to: &mut Vec<u8>) {
    for (i, value) in numbers.enumerate() {
        let mark = if i == 0 { b'\t' } else { b',' };
        number(mark, value, to);
    }
}

#[cfg(test)]
mod tests {
    use super::super::format::tried;
    use super::{row, takes};

    #[test]
    fn components_are_blocks() {
        for (second, line) in [
            (9, "s\t4\t11\tAC[0,3]GTA\t0\t+\t4\t11\t0\t2\t2,3\t0,4\n"),
            // A gap of 0: the blocks touch.
            (7, "s\t4\t9\tAC[0,3]GTA\t0\t+\t4\t9\t0\t2\t2,3\t0,2\n"),
        ] {
            let mut lines = Vec::new();
            tried(b"s", second, |occurrence| row(occurrence, &mut lines));
            assert_eq!(String::from_utf8_lossy(&lines), line);
        }
    }

    #[test]
    fn names_are_those_of_a_genome() {
        for name in ["chr1", "NC_000913.3", "gi|556503834|ref", "atrack", "1#"] {
            assert_eq!(takes(name.as_bytes()), Ok(()), "{name}");
        }
        assert_eq!(takes(b"\xff\xc3"), Ok(()));
        assert_eq!(takes(&[b'a'; 255]), Ok(()));
        for name in [
            "", "a b", "a\tb", "a\r", "\u{7f}", "#a", "track", "browser1",
        ] {
            assert!(takes(name.as_bytes()).is_err(), "{name:?}");
        }
        assert!(takes(&[b'a'; 256]).is_err());
    }
}
