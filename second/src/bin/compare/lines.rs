//! FASTA files for the program `lines`: sound ones, ones with everything that
//! a reader can trip over, ones of about the most bytes that it holds, and one
//! for each byte, with that among the letters.

use crate::program;
use second::requests::files;
use second::requests::random::Random;
use std::collections::BTreeMap;

const SEED: u64 = 112;

/// The refusals that a file can come to, all of which have to come up, as have
/// lines (0).
const REFUSALS: [u64; 4] = [0, 4, 19, 20];

/// "a file that it can't hold, above 1 MiB"
const MOST_BYTES: usize = 1 << 20;

/// A file of so many bytes: the same piece again and again, cut at the end.
fn filled(piece: &[u8], length: usize) -> Vec<u8> {
    piece.iter().copied().cycle().take(length).collect()
}

/// Files of the most bytes and of one more: one record, records without
/// letters, short ones, nothing but line ends, nothing but text; and one whose
/// last byte alone is no letter.
fn long(random: &mut Random) -> Vec<Vec<u8>> {
    let mut long = Vec::new();
    for length in [MOST_BYTES - 1, MOST_BYTES, MOST_BYTES + 1] {
        let mut one = b">\n".to_vec();
        one.extend(random.letters((length - one.len()) as u64, 4));
        long.push(one.clone());
        one[length - 1] = b'N';
        long.push(one);
        for piece in [
            &b">"[..],
            b">\n",
            b">\r\n",
            b">p q\nACGT\r\n\r\n",
            b"\n",
            b"\r\n",
            b"A",
        ] {
            long.push(filled(piece, length));
        }
    }
    long
}

/// Records about as long as a search may be, and more of them than it takes,
/// in lines of any length.
fn many(random: &mut Random) -> Vec<Vec<u8>> {
    let mut many = vec![b">a\r\nACG\n".repeat(1_025)];
    for letters in [4_095, 4_096, 4_097, 65_535, 65_536, 65_537] {
        let mut file = b"\n>one\n".to_vec();
        let width = random.within(1, 200) as usize;
        for line in random.letters(letters, 4).chunks(width) {
            file.extend(line);
            file.extend(random.pick(&[&b"\n"[..], b"\r\n", b"\n\n"]));
        }
        file.extend(b">two\nG");
        many.push(file);
    }
    many
}

fn all_files() -> Vec<Vec<u8>> {
    let random = &mut Random::new(SEED);
    let mut all = files::beginnings(files::SMALL);
    all.extend(long(random));
    all.extend(many(random));
    all.extend((0..400).map(|_| files::any(random)));
    all.extend(files::every_byte(b"AC", b"GT"));
    all
}

/// The number of a refusal, 0 where there is none.
fn refusal(printout: &[u8]) -> u64 {
    match printout.strip_prefix(b"refused ") {
        Some(told) => {
            let told = String::from_utf8_lossy(told);
            let number = told.split(' ').next().and_then(|word| word.parse().ok());
            number.expect("a refusal has a number")
        }
        None => 0,
    }
}

/// Cuts every file to lines with the program and with the second one, and
/// compares the two; at the first difference, says what it is.
pub fn compare(command: &[String]) -> Result<(), String> {
    let all = all_files();
    let mut seen: BTreeMap<u64, usize> = BTreeMap::new();
    for file in &all {
        let expected = second::lines_text(file);
        program::prints(command, file, &expected)
            .map_err(|difference| format!("files, seed {SEED}: {difference}"))?;
        *seen.entry(refusal(&expected)).or_default() += 1;
    }
    println!("files: {} cut to lines, seed {SEED}", all.len());
    program::all_seen("files", &REFUSALS, &seen)
}
