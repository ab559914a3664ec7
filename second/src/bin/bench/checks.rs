//! The checks of a new search, letters and all: the library's `begin` beside a
//! Rust program that checks the same and begins nothing.

use crate::inputs;
use crate::linked;
use crate::timing::{in_turn, ratios, row, title, Work};
use crate::walk::Search;

/// The first byte that is no letter, if there is one: all are looked at first,
/// with no way out of the loop, and it is then sought by blocks of 64, as the
/// library does.
fn no_letter(letters: &[u8]) -> Option<usize> {
    let is_letter = |byte: &u8| matches!(byte, b'A' | b'C' | b'G' | b'T');
    let all = |bytes: &[u8]| bytes.iter().fold(true, |fine, byte| fine & is_letter(byte));
    if all(letters) {
        return None;
    }
    let sound = letters.chunks_exact(64).take_while(|block| all(block));
    let passed = 64 * sound.count();
    let rest = letters[passed..].iter().position(|byte| !is_letter(byte));
    rest.map(|at| passed + at)
}

/// What a new search over a set is refused with, and the place told: 1 to 4,
/// those that look at the sequences.
fn refused(search: &Search) -> Option<(u64, u64)> {
    let (letters, lengths) = (&search.set.letters, &search.set.lengths);
    if lengths.is_empty() || lengths.len() > 1_024 {
        return Some((1, 0));
    }
    if letters.len() > 65_536 {
        return Some((2, 0));
    }
    let sum: u64 = lengths.iter().map(|length| u64::from(*length)).sum();
    if sum != letters.len() as u64 {
        return Some((3, 0));
    }
    no_letter(letters).map(|at| (4, at as u64))
}

/// The same, by the library.
fn refused_by_library(search: &Search) -> Option<(u64, u64)> {
    let shape = linked::shape(search);
    let template = tulfasheq::Template::exact(search.components.len() as u16, &shape);
    let mut saved = [0; 128];
    let (letters, lengths) = (&search.set.letters, &search.set.lengths);
    let begun = tulfasheq::begin(letters, lengths, template, search.quorum, &mut saved);
    begun.err().map(|why| (u64::from(why.number), why.place))
}

/// The last letter made a byte that is none.
fn spoilt(mut search: Search) -> Search {
    *search.set.letters.last_mut().expect("letters") = b'N';
    search
}

/// 65,536 letters, in one sequence and in 1,024, all of them letters and all
/// but the last.
pub fn of_a_new_search() {
    println!("A new search over 65,536 letters, checked\n");
    title(&["set", "library, us", "Rust, us", "library / Rust"]);
    for (name, search) in [
        ("one sequence", inputs::one_sequence(0, 30)),
        ("1,024 sequences", inputs::twelve_percent()),
        (
            "one sequence, its last byte N",
            spoilt(inputs::one_sequence(0, 30)),
        ),
    ] {
        assert_eq!(refused_by_library(&search), refused(&search), "{name}");
        let number = |refusal: Option<(u64, u64)>| refusal.map_or(0, |(number, _)| number);
        let mut works: [Work; 2] = [
            Box::new(|| number(refused_by_library(&search))),
            Box::new(|| number(refused(std::hint::black_box(&search)))),
        ];
        let times = in_turn(2_000, &mut works);
        row(&[
            name.to_string(),
            format!("{:.1}", times[0].least() * 1e6),
            format!("{:.1}", times[1].least() * 1e6),
            ratios(&times[0], &times[1]),
        ]);
    }
    println!();
}
