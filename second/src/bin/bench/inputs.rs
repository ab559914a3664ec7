//! The inputs that are measured, each from a fixed seed.

use crate::walk::{Search, Set};
use second::requests::random::Random;
use second::{Component, Profile};

pub fn component(length: u8, low: u16, high: u16) -> Component {
    Component {
        length,
        low,
        high,
        allowance: 0,
    }
}

/// A shortest sequence in which every word of four letters stands: each letter
/// is the last one whose word of four has not been there.
fn every_word() -> Vec<u8> {
    let mut sequence = b"AAA".to_vec();
    while let Some(next) = b"TGCA".iter().find(|letter| {
        let word = [&sequence[sequence.len() - 3..], &[**letter]].concat();
        !sequence.windows(4).any(|there| there == word)
    }) {
        sequence.push(*next);
    }
    sequence
}

/// A search that lists nothing and goes through the same candidates whatever
/// its gap range: N N [low,high] N N [255,255] N over two sequences, quorum 2.
/// Both have every word of four letters, so every prefix of four letters is
/// frequent; the second is too short for the third component, so no longer one
/// is. The search takes 4 + 16 + 64 + 256 + 1,024 steps.
pub fn walk(letters: usize, low: u16, high: u16) -> Search {
    let short = every_word();
    let mut long = short.clone();
    let more = letters - 2 * short.len();
    long.extend(Random::new(letters as u64).letters(more as u64, 4));
    Search {
        set: Set::of(&[long, short]),
        profile: Profile::Exact,
        components: vec![
            component(2, 0, 0),
            component(2, low, high),
            component(1, 255, 255),
        ],
        quorum: 2,
    }
}

/// One sequence of 65,536 letters, and two components of six letters each.
pub fn one_sequence(low: u16, high: u16) -> Search {
    Search {
        set: Set::of(&[Random::new(1).letters(65_536, 4)]),
        profile: Profile::Exact,
        components: vec![component(6, 0, 0), component(6, low, high)],
        quorum: 1,
    }
}

/// The same sequence, and as many letters and gaps as a template can have.
pub fn deepest() -> Search {
    let mut search = one_sequence(0, 0);
    search.components = [6, 6, 5, 5, 5, 5].map(|n| component(n, 0, 255)).to_vec();
    search.components[0] = component(6, 0, 0);
    search
}

/// The template NNNN[0,100]NNNN[0,100]NNNN at a quorum of 12 % on 1,024
/// sequences of 64 letters.
pub fn twelve_percent() -> Search {
    let mut random = Random::new(12);
    let sequences: Vec<Vec<u8>> = (0..1_024).map(|_| random.letters(64, 4)).collect();
    Search {
        set: Set::of(&sequences),
        profile: Profile::Exact,
        components: vec![
            component(4, 0, 0),
            component(4, 0, 100),
            component(4, 0, 100),
        ],
        quorum: 123,
    }
}

/// A search of which most candidates are listed motifs: NNN[0,30]NNN over 64
/// sequences of 128 letters, quorum 2.
pub fn many_rows() -> Search {
    let mut random = Random::new(64);
    let sequences: Vec<Vec<u8>> = (0..64).map(|_| random.letters(128, 4)).collect();
    Search {
        set: Set::of(&sequences),
        profile: Profile::Exact,
        components: vec![component(3, 0, 0), component(3, 0, 30)],
        quorum: 2,
    }
}

/// N[0,30]N[0,30]N over one sequence of 65,536 letters: AAA has about a million
/// occurrences.
pub fn many_occurrences() -> Search {
    Search {
        set: Set::of(&[Random::new(2).letters(65_536, 4)]),
        profile: Profile::Exact,
        components: vec![component(1, 0, 0), component(1, 0, 30), component(1, 0, 30)],
        quorum: 1,
    }
}

/// A motif with few occurrences, of six components over 1,024 sequences: what
/// is measured is how they are looked for.
pub fn few_occurrences() -> Search {
    let mut search = twelve_percent();
    search.components = vec![component(2, 0, 3); 6];
    search.components[0] = component(2, 0, 0);
    search
}

/// Random letters, so many sequences of so many.
pub fn random(count: usize, letters: u64, shape: &[(u8, u16, u16)], quorum: u64) -> Search {
    let mut random = Random::new(letters + count as u64);
    let sequences: Vec<Vec<u8>> = (0..count).map(|_| random.letters(letters, 4)).collect();
    let parts = shape.iter();
    Search {
        set: Set::of(&sequences),
        profile: Profile::Exact,
        components: parts
            .map(|(n, low, high)| component(*n, *low, *high))
            .collect(),
        quorum,
    }
}

/// Long sequences that end within a line of eight words, and within a word: so
/// many sequences of so many letters, and the shape.
pub fn short_last_lines() -> [Search; 4] {
    let six = [(6, 0, 0), (4, 0, 30)];
    [
        random(1, 64_900, &[(12, 0, 0)], 1),
        random(3, 20_001, &six, 1),
        random(7, 9_001, &six, 3),
        random(7, 9_000, &[(6, 0, 0), (6, 0, 255)], 1),
    ]
}

/// Searches of several shapes, with the steps that are taken of each.
pub fn searches() -> [(&'static str, Search, u64); 11] {
    let three = [(3, 0, 0), (3, 0, 30), (3, 0, 30)];
    let six = [(6, 0, 0), (4, 0, 30)];
    [
        (
            "NNNN[0,100]NNNN[0,100]NNNN, 12 % of 1,024 sequences of 64",
            twelve_percent(),
            u64::MAX,
        ),
        (
            "NNN[0,30]NNN[0,30]NNN, 12 % of 1,024 sequences of 64",
            random(1_024, 64, &three, 123),
            10_000,
        ),
        (
            "NNNN[0,255]NNNN, 18 of 20 sequences of 600",
            random(20, 600, &[(4, 0, 0), (4, 0, 255)], 18),
            50_000,
        ),
        (
            "NNNN[0,50]NNNN, 32 of 64 sequences of 1,024",
            random(64, 1_024, &[(4, 0, 0), (4, 0, 50)], 32),
            10_000,
        ),
        (
            "NNN[0,30]NNN, 2 of 64 sequences of 128",
            many_rows(),
            u64::MAX,
        ),
        (
            "NNNNNN[0,30]NNNN, one sequence of 65,536",
            random(1, 65_536, &six, 1),
            10_000,
        ),
        (
            "NNNNNN[0,30]NNNN, 4 of 8 sequences of 8,192",
            random(8, 8_192, &six, 4),
            10_000,
        ),
        (
            "NNNNNN[0,30]NNNN, all 8 sequences of 8,192",
            random(8, 8_192, &six, 8),
            10_000,
        ),
        (
            "N x 12, one sequence of 65,536",
            random(1, 65_536, &[(12, 0, 0)], 1),
            100_000,
        ),
        (
            "NNNNNNNN[0,0]NNNN, one sequence of 65,536",
            random(1, 65_536, &[(8, 0, 0), (4, 0, 0)], 1),
            100_000,
        ),
        (
            "NNNNNN[0,255]NNNNNN, one sequence of 65,536",
            random(1, 65_536, &[(6, 0, 0), (6, 0, 255)], 1),
            100_000,
        ),
    ]
}
