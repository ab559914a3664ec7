//! The lines of a FASTA file, as far as messages and `--upper` speak of them.

/// The letters that a search takes, in lower case.
pub const LOWER: &[u8] = b"acgt";

/// The lines of a file without their ends, each with its offset.
pub fn all(file: &[u8]) -> impl Iterator<Item = (usize, &[u8])> {
    let mut at = 0;
    file.split_inclusive(|b| *b == b'\n').map(move |line| {
        let start = at;
        at += line.len();
        let ended = line.strip_suffix(b"\n").unwrap_or(line);
        (start, ended.strip_suffix(b"\r").unwrap_or(ended))
    })
}

/// Whether a line begins a record.
pub fn is_header(line: &[u8]) -> bool {
    line.starts_with(b">")
}

/// A record's name, as it stands in its header: up to a space or a tab.
pub fn name(header: &[u8]) -> &[u8] {
    let end = header.iter().position(|b| b" \t".contains(b));
    &header[1..end.unwrap_or(header.len())]
}

/// A name as it is told: of a long one the beginning.
pub fn told(name: &[u8]) -> String {
    const MOST: usize = 60;
    let text = String::from_utf8_lossy(name);
    match text.char_indices().nth(MOST) {
        Some((end, _)) => format!("{}…", &text[..end]),
        None => text.into_owned(),
    }
}

/// The line and the byte in it, both from 1, of an offset.
pub fn place(file: &[u8], offset: usize) -> (usize, usize) {
    let before = &file[..offset.min(file.len())];
    let line = before.split(|b| *b == b'\n').count();
    let start = before
        .iter()
        .rposition(|b| *b == b'\n')
        .map_or(0, |i| i + 1);
    (line, before.len() - start + 1)
}

/// Makes the lower-case letters of the records upper-case ones, names apart,
/// and tells how many there were. What is no letter in upper case stays.
pub fn raise(file: &mut [u8]) -> u64 {
    let mut raised = 0;
    for line in file.split_mut(|b| *b == b'\n') {
        if is_header(line) {
            continue;
        }
        for byte in line.iter_mut().filter(|b| LOWER.contains(b)) {
            byte.make_ascii_uppercase();
            raised += 1;
        }
    }
    raised
}

#[cfg(test)]
mod tests {
    use super::{all, name, raise, told};

    #[test]
    fn lines_have_their_offsets_and_no_ends() {
        let lines: Vec<_> = all(b">a b\r\nAC\n\nG").collect();
        let expected: [(usize, &[u8]); 4] = [(0, b">a b"), (6, b"AC"), (9, b""), (10, b"G")];
        assert_eq!(lines, expected);
        assert_eq!(name(b">a b"), b"a");
        assert_eq!(name(b">"), b"");
    }

    #[test]
    fn a_long_name_is_told_by_its_beginning() {
        assert_eq!(told(&[b'x'; 61]), format!("{}…", "x".repeat(60)));
        assert_eq!(told(&[b'x'; 60]), "x".repeat(60));
    }

    #[test]
    fn names_and_what_is_no_letter_are_not_raised() {
        let mut file = *b">acgt\nacGTn\r\n\n>t\nu-t";
        assert_eq!(raise(&mut file), 3);
        assert_eq!(&file, b">acgt\nACGTn\r\n\n>t\nu-T");
    }
}
