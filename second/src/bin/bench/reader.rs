//! A FASTA reader in plain Rust, with the library's contract: it goes through
//! a record's lines once to count and check their bytes, and once more to copy
//! them, since a refused record leaves nothing behind. A line's letters are
//! checked with no way out, so that a compiler can take many bytes at a time,
//! as the library does. How a line's end is found is left open: `one_by_one`
//! stops at the first; `in_eights` passes eight bytes at a time, with no way
//! out among them, and then goes one by one, as the library does.

use second::Refusal;

/// The lines of a file from an offset on, each with the offset that it begins
/// at and without its end.
#[derive(Clone)]
struct Lines<'a, F> {
    file: &'a [u8],
    at: usize,
    find_end: F,
}

impl<'a, F: Fn(&[u8]) -> Option<usize>> Iterator for Lines<'a, F> {
    type Item = (usize, &'a [u8]);

    fn next(&mut self) -> Option<(usize, &'a [u8])> {
        let at = self.at;
        let rest = self.file.get(at..).filter(|rest| !rest.is_empty())?;
        let Some(end) = (self.find_end)(rest) else {
            self.at = self.file.len();
            return Some((at, rest));
        };
        self.at = at + end + 1;
        let text = &rest[..end];
        Some((at, text.strip_suffix(b"\r").unwrap_or(text)))
    }
}

fn is_end(byte: &u8) -> bool {
    *byte == b'\n'
}

/// The first byte 10 of a text.
pub fn one_by_one(text: &[u8]) -> Option<usize> {
    text.iter().position(is_end)
}

/// The same, once the eights before it are passed.
pub fn in_eights(text: &[u8]) -> Option<usize> {
    let without = |eight: &&[u8]| !eight.iter().fold(false, |some, byte| some | is_end(byte));
    let passed = 8 * text.chunks_exact(8).take_while(without).count();
    Some(passed + one_by_one(&text[passed..])?)
}

fn is_letter(byte: &u8) -> bool {
    matches!(byte, b'A' | b'C' | b'G' | b'T')
}

/// The first byte of a line that is no letter, once it is known that there is
/// one.
fn no_letter(text: &[u8]) -> Option<usize> {
    if text.iter().fold(true, |fine, byte| fine & is_letter(byte)) {
        return None;
    }
    text.iter().position(|byte| !is_letter(byte))
}

/// A reader over a lent file, by how it finds a line's end.
pub struct Reader<'a, F> {
    file: &'a [u8],
    at: usize,
    find_end: F,
}

impl<'a, F: Fn(&[u8]) -> Option<usize> + Copy> Reader<'a, F> {
    pub fn new(file: &'a [u8], find_end: F) -> Reader<'a, F> {
        Reader {
            file,
            at: 0,
            find_end,
        }
    }

    pub fn at(&self) -> u64 {
        self.at as u64
    }

    /// The next record's name. Its letters go to `letters` behind the `used`
    /// that it holds, and their number to `lengths` behind its `count` rows.
    pub fn next(
        &mut self,
        letters: &mut [u8],
        used: &mut u64,
        lengths: &mut [u32],
        count: &mut u64,
    ) -> Result<Option<&'a [u8]>, Refusal> {
        let mut lines = Lines {
            file: self.file,
            at: self.at,
            find_end: self.find_end,
        };
        let Some((_, header)) = lines.find(|(_, text)| !text.is_empty()) else {
            return Ok(None);
        };
        let Some(title) = header.strip_prefix(b">") else {
            return Err(Refusal::plain(19));
        };
        let (mut size, mut bad, mut next) = (0, None, self.file.len());
        for (at, text) in lines.clone() {
            if text.first() == Some(&b'>') {
                next = at;
                break;
            }
            size += text.len();
            bad = bad.or_else(|| Some(at + no_letter(text)?));
        }
        let room = letters.get_mut(*used as usize..);
        let room = room.and_then(|rest| rest.get_mut(..size));
        let row = lengths.get_mut(*count as usize);
        let (Some(mut room), Some(row), Ok(number)) = (room, row, u32::try_from(size)) else {
            return Err(Refusal::plain(20));
        };
        if let Some(place) = bad {
            return Err(Refusal::at(Refusal::NO_LETTER, place as u64));
        }
        for (_, text) in lines.take_while(|(at, _)| *at < next) {
            let (here, rest) = room.split_at_mut(text.len());
            here.copy_from_slice(text);
            room = rest;
        }
        *row = number;
        self.at = next;
        *used += size as u64;
        *count += 1;
        Ok(title.split(|byte| matches!(byte, b' ' | b'\t')).next())
    }
}
