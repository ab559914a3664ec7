//! The bytes of a file that a user passes.

use super::gzip;
use crate::counted::grouped;
use crate::failure::{Answer, Failure};
use library::limits;
use std::fs::File;
use std::io::{self, Read};
use std::path::Path;

/// The most bytes that are read of a file: it may have long names and be in
/// short lines, but it may also grow, or never end.
pub const MOST_BYTES: u64 = 16 * 1024 * 1024;

/// A file's bytes, unpacked.
pub struct Input {
    /// What it is called in messages.
    pub called: String,
    pub bytes: Vec<u8>,
    /// Whether it is a plain file that was not packed.
    pub plain: bool,
}

/// Reads a file whole, or standard input for `-`, and unpacks it.
pub fn read(path: &Path) -> Answer<Input> {
    let input = path == Path::new("-");
    let (called, bytes) = if input {
        let called = "standard input".to_string();
        let bytes = bytes_of(io::stdin().lock(), &called)?;
        (called, bytes)
    } else {
        let called = path.display().to_string();
        let file = File::open(path).map_err(|error| Failure::io(&called, &error))?;
        let bytes = bytes_of(file, &called)?;
        (called, bytes)
    };
    let packed = gzip::packed(&bytes);
    let bytes = if packed {
        gzip::unpacked(bytes, &called)?
    } else {
        bytes
    };
    Ok(Input {
        called,
        bytes,
        plain: !packed && !input && path.is_file(),
    })
}

/// Reads to the end, or until it is clear that there is too much.
fn bytes_of(from: impl Read, called: &str) -> Answer<Vec<u8>> {
    let mut bytes = Vec::new();
    from.take(MOST_BYTES + 1)
        .read_to_end(&mut bytes)
        .map_err(|error| Failure::io(called, &error))?;
    if bytes.len() as u64 > MOST_BYTES {
        return Err(too_long(called));
    }
    Ok(bytes)
}

/// A file with more bytes than are read of one.
pub fn too_long(called: &str) -> Failure {
    Failure::refused(format!(
        "{called}: longer than {} bytes, and was not read on: a search takes at most {} letters, in {} sequences",
        grouped(MOST_BYTES),
        grouped(limits::LETTERS as u64),
        grouped(limits::SEQUENCES as u64)
    ))
}
