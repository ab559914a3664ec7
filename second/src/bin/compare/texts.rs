//! Texts for the printing program: searches that are printed whole, lists
//! about as long as the program's tables and far longer, texts that are too
//! long, and those that are malformed or cut.

use crate::faulty::{beyond, damaged, faulty_ends, faulty_lines};
use crate::program;
use second::requests::random::Random;
use std::collections::BTreeMap;

const SEED: u64 = 109;

/// The refusals that an input can come to, all of which have to come up, as
/// has a search (0). No text has too many letters (2) or lengths that do not
/// add up (3).
const REFUSALS: [u64; 9] = [0, 1, 4, 5, 6, 7, 8, 9, 18];

/// "Input over 60,000 bytes".
const MOST_BYTES: usize = 60_000;

pub fn text(template: &str, quorum: &str, sequences: &[Vec<u8>]) -> Vec<u8> {
    let mut text = format!("{template}\n{quorum}\n").into_bytes();
    for sequence in sequences {
        text.extend(sequence);
        text.push(b'\n');
    }
    text
}

/// The paper's set E.
pub fn e() -> Vec<Vec<u8>> {
    ["ACGTA", "CAGGT", "AT"]
        .map(|sequence| sequence.as_bytes().to_vec())
        .to_vec()
}

/// A template's text, of at most `most` letters.
fn template(random: &mut Random, most: u64) -> String {
    let mut left = random.within(1, most);
    let mut text = String::new();
    for component in 0..6 {
        if left == 0 {
            break;
        }
        if component > 0 {
            let low = random.below(3);
            let widest = random.pick(&[3, 12, 100, 255]);
            let high = random.within(low, widest);
            text.push_str(&format!("[{low},{high}]"));
        }
        let length = random.within(1, left.min(12));
        text.push_str(&"N".repeat(length as usize));
        left -= length;
    }
    text
}

/// A text with nothing wrong.
pub fn sound(random: &mut Random) -> Vec<u8> {
    let (most, alphabet) = (random.within(1, 6), random.within(1, 4));
    let sequences: Vec<Vec<u8>> = (0..most)
        .map(|_| {
            let length = random.below(40);
            random.letters(length, alphabet)
        })
        .collect();
    let letters = random.pick(&[2, 4, 6]);
    let quorum = random.within(1, most).to_string();
    text(&template(random, letters), &quorum, &sequences)
}

/// Lists of exactly so many rows: each sequence is one word, all different.
fn long_lists() -> Vec<Vec<u8>> {
    let word = |number: usize| {
        (0..5)
            .rev()
            .map(|i| b"ACGT"[(number >> (2 * i)) % 4])
            .collect()
    };
    [255, 256, 257, 511, 512, 513, 769, 1_023, 1_024]
        .map(|rows| {
            // 389 has no factor in common with 1,024: no word comes twice.
            let words: Vec<Vec<u8>> = (0..rows).map(|i| word(i * 389 % 1_024)).collect();
            text("NNNNN", "1", &words)
        })
        .to_vec()
}

/// Searches of more steps than one leg of the program takes: with few rows,
/// and with many.
fn long_searches(random: &mut Random) -> Vec<Vec<u8>> {
    ["NNN[0,60]NNNNNN", "NN[0,90]NN[0,90]NNNN"]
        .map(|template| {
            let sequences: Vec<Vec<u8>> = (0..2).map(|_| random.letters(180, 4)).collect();
            text(template, "2", &sequences)
        })
        .to_vec()
}

/// Searches by whose weights a wrong count shows: occurrences that share some
/// of their starts, with other sequences between; and very many, whose weight
/// has 17 digits.
fn weights() -> Vec<Vec<u8>> {
    let shares = ["", "ACGG", "", "TGCA", "AACG", "", "ACCG", "GCA"];
    let shares: Vec<Vec<u8>> = shares.map(|s| s.as_bytes().to_vec()).to_vec();
    let widest = ["N"; 6].join("[0,255]");
    let run = |length: usize| vec![b'A'; length];
    let most = MOST_BYTES - text(&widest, "1", &[Vec::new()]).len();
    vec![
        text("N[0,3]N[0,3]N", "1", &shares),
        text("N[0,3]N[0,3]N", "3", &shares),
        text(&widest, "1", &[run(most)]),
        text(
            &widest,
            "2",
            &[run(25_000), Vec::new(), b"CAC".to_vec(), run(30_000)],
        ),
    ]
}

/// Texts of the most bytes and of one more, and sets of the most sequences.
fn long_texts(random: &mut Random) -> Vec<Vec<u8>> {
    let mut texts = Vec::new();
    for length in [MOST_BYTES, MOST_BYTES + 1] {
        // Four sequences, nothing of which is frequent but single letters.
        let head = text(
            "N[0,255]N",
            "4",
            &[b"A".to_vec(), b"C".to_vec(), b"G".to_vec()],
        );
        let mut whole = head.clone();
        whole.extend(random.letters((length - head.len() - 1) as u64, 4));
        whole.push(b'\n');
        texts.push(whole.clone());
        // The same without its last line end, and with a byte that is no letter.
        whole[length - 1] = b'T';
        texts.push(whole.clone());
        whole[length - 1] = b'\n';
        whole[length - 2] = b'N';
        texts.push(whole);
        texts.push(vec![b'N'; length]);
        texts.push(vec![b'\n'; length]);
        let mut empty = b"N\n1\n".to_vec();
        empty.resize(length, b'\n');
        texts.push(empty);
        let mut run = vec![b'N'; length - 5];
        run.extend(b"\n1\nA\n");
        texts.push(run);
    }
    for sequences in [1_023, 1_024, 1_025] {
        texts.push(text("N", "1", &vec![b"C".to_vec(); sequences]));
    }
    texts
}

fn texts() -> Vec<Vec<u8>> {
    let random = &mut Random::new(SEED);
    let mut texts = long_lists();
    texts.extend(long_searches(random));
    texts.extend(weights());
    texts.extend(faulty_lines());
    texts.extend(faulty_ends());
    texts.extend(long_texts(random));
    texts.extend((0..150).map(|_| sound(random)));
    texts.extend((0..60).map(|_| beyond(random)));
    texts.extend((0..240).map(|_| damaged(random)));
    texts
}

/// What the last line of a printout tells: a refusal's number, 0 where there
/// is none; and a search's steps and rows.
fn told(printout: &[u8]) -> (u64, u64, u64) {
    let printout = String::from_utf8_lossy(printout);
    let last: Vec<&str> = printout.lines().last().unwrap_or("").split(' ').collect();
    let number = |word: &str| word.parse().expect("a printout ends in two numbers");
    match last[..] {
        ["refused", refusal, _] => (number(refusal), 0, 0),
        ["end", steps, rows] => (0, number(steps), number(rows)),
        _ => panic!("a printout ends in `end` or `refused`"),
    }
}

/// Prints every text with the program and with the second one, and compares
/// the two; at the first difference, says what it is.
pub fn compare(command: &[String]) -> Result<(), String> {
    let texts = texts();
    let mut seen: BTreeMap<u64, usize> = BTreeMap::new();
    let (mut most_steps, mut most_rows) = (0, 0);
    for text in &texts {
        let expected = second::printout(text);
        program::prints(command, text, &expected)
            .map_err(|difference| format!("texts, seed {SEED}: {difference}"))?;
        let (refusal, steps, rows) = told(&expected);
        *seen.entry(refusal).or_default() += 1;
        (most_steps, most_rows) = (most_steps.max(steps), most_rows.max(rows));
    }
    println!(
        "texts: {} printed, seed {SEED}, with up to {most_steps} steps and {most_rows} rows",
        texts.len()
    );
    program::all_seen("texts", &REFUSALS, &seen)
}
