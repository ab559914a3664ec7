//! What the library refuses of a file, and where.

use super::{foreign, lines};
use library::Refusal;

/// A line that tells the place, what is wrong there and the refusal's number.
pub fn told(called: &str, file: &[u8], refusal: Refusal) -> String {
    let (offset, why) = match refusal.number {
        4 => (
            refusal.place as usize,
            no_letter(file, refusal.place as usize),
        ),
        19 => (first_text(file), before_first(file)),
        20 => (0, "a record that is too long to be read".to_string()),
        _ => (0, "refused".to_string()),
    };
    let (line, column) = lines::place(file, offset);
    format!(
        "{called}:{line}:{column}: {why} (refusal {})",
        refusal.number
    )
}

/// A byte that is no letter, as a person sees it.
fn no_letter(file: &[u8], offset: usize) -> String {
    match file.get(offset) {
        Some(byte) if lines::LOWER.contains(byte) => {
            format!(
                "'{}' is no letter: letters are upper case",
                char::from(*byte)
            )
        }
        Some(byte) if byte.is_ascii_graphic() => {
            format!("'{}' is no letter", char::from(*byte))
        }
        Some(b' ') => "a space is no letter".to_string(),
        Some(b'\t') => "a tab is no letter".to_string(),
        Some(byte) => format!("byte {byte} is no letter"),
        None => "a byte is no letter".to_string(),
    }
}

/// Text before the first record, and what it may be.
fn before_first(file: &[u8]) -> String {
    match foreign::of(&file[first_text(file)..]) {
        Some(kind) => format!("text before the first '>': {}", kind.what),
        None => "text before the first '>'".to_string(),
    }
}

/// The offset of the first line that is not empty.
pub fn first_text(file: &[u8]) -> usize {
    let mut at = 0;
    for line in file.split_inclusive(|b| *b == b'\n') {
        if line != b"\n" && line != b"\r\n" {
            return at;
        }
        at += line.len();
    }
    0
}
