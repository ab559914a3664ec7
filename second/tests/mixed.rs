//! The mixed profile: what its fourteen letters mean, searches done by hand,
//! and as many letters as a motif can have.

mod common;

use common::*;
use second::{recover, Answer, Profile, Recovered};

/// Document 000's "Table 3: IUPAC alphabet", as it is printed.
const TABLE: [(&str, &str); 4] = [
    ("A C G T", "A C G T"),
    ("U R Y K", "U A,G C,T G,T"),
    ("M S W B", "A,C G,C A,T C,G,T"),
    ("D H V N", "A,G,T A,C,T A,C,G A,C,G,T"),
];

/// The bases of a letter, from that table.
fn bases(letter: char) -> String {
    for (symbols, bases) in TABLE {
        let mut pairs = symbols.split(' ').zip(bases.split(' '));
        if let Some((_, bases)) = pairs.find(|(symbol, _)| symbol.starts_with(letter)) {
            return bases.replace(',', "");
        }
    }
    panic!("{letter} is not in the table");
}

/// The order that the request gives.
const ORDER: &str = "A C G T R Y K M S W B D H V";

#[test]
fn the_fourteen_letters_and_what_they_mean() {
    let letters: Vec<char> = ORDER.split(' ').map(|l| l.parse().unwrap()).collect();
    let names: Vec<char> = Profile::Mixed
        .letters()
        .iter()
        .map(|l| *l as char)
        .collect();
    assert_eq!(names, letters);
    let one = mixed(&[(1, 1, 0, 0)]);
    for base in ["A", "C", "G", "T"] {
        let lent = Lent::new(&[base]);
        let listed: Vec<Row> = (0..)
            .zip(&letters)
            .filter(|(_, letter)| bases(**letter).contains(base))
            .map(|(digit, _)| (digit, 1, 1))
            .collect();
        // A letter of its own, three of two bases and three of three.
        assert_eq!(listed.len(), 7);
        assert_eq!(whole(&lent, &one, 1), (14, listed));
    }
    // Each letter has its bases and no other.
    for (digit, letter) in (0..).zip(&letters) {
        let lent = Lent::new(&["A", "C", "G", "T"]);
        let mut out = [0; 8];
        let told = recover(&lent.letters, &lent.lengths, &one, digit, 0, &mut out).unwrap();
        let found: String = out[..2 * told.rows]
            .chunks(2)
            .map(|row| ["A", "C", "G", "T"][row[0] as usize - 1])
            .collect();
        let mut expected: Vec<char> = bases(*letter).chars().collect();
        expected.sort();
        assert_eq!(found, expected.iter().collect::<String>(), "{letter}");
    }
}

#[test]
fn without_allowances_it_is_the_exact_search() {
    let none = mixed(&[(1, 0, 0, 0), (1, 0, 0, 1)]);
    let rows = vec![(0x02, 2, 3), (0x12, 2, 2), (0x23, 2, 3)];
    assert_eq!(whole(&e(), &none, 2), (20, rows));
    assert_eq!(whole(&e(), &none, 3), (12, vec![]));
}

/// In E every A, and every T, is in each sequence. What comes after an A, at
/// once or one later: C or G in the first sequence, G in the second, T in the
/// third; so a letter that stands for G and T.
#[test]
fn one_mixed_letter_in_the_second_component() {
    let second = mixed(&[(1, 0, 0, 0), (1, 1, 0, 1)]);
    let listed = ["AK", "AB", "AD"].map(mixed_number);
    assert_eq!(listed, [6, 10, 11]);
    // A, C, G, T; fourteen after A and fourteen after T.
    let rows = vec![(6, 3, 4), (10, 3, 5), (11, 3, 4)];
    assert_eq!(whole(&e(), &second, 3), (32, rows));

    let lent = e();
    let mut out = [0; 16];
    let told = recover(&lent.letters, &lent.lengths, &second, 10, 0, &mut out);
    assert_eq!(told, Ok(Recovered { rows: 5, length: 5 }));
    assert_eq!(out, [1, 1, 2, 1, 1, 3, 2, 2, 3, 2, 2, 4, 3, 1, 2, 0]);
}

/// Before a T: C or G in the first sequence, G in the second, A in the third.
/// Of one letter, all but C, G and S are frequent: 14 and 11 times 4.
#[test]
fn one_mixed_letter_in_the_first_component() {
    let first = mixed(&[(1, 1, 0, 0), (1, 0, 0, 1)]);
    let [rt, dt, vt] = ["RT", "DT", "VT"].map(mixed_number);
    let rows = vec![(rt, 3, 4), (dt, 3, 4), (vt, 3, 5)];
    assert_eq!(whole(&e(), &first, 3), (58, rows));
}

/// The pairs of neighbours: AC CG GT TA, CA AG GG GT, AT. A or T is followed by
/// any of fourteen letters, a mixed one by four: 14, 2 times 14, 9 times 4.
#[test]
fn one_mixed_letter_in_a_component_of_two() {
    let one = mixed(&[(2, 1, 0, 0)]);
    let rows = ["AB", "RT", "DT", "VT"].map(|motif| (mixed_number(motif), 3, 3));
    assert_eq!(whole(&e(), &one, 3), (78, rows.to_vec()));
    // With two, mixed letters come after mixed ones too: 14 and 11 times 14.
    let (steps, both) = whole(&e(), &mixed(&[(2, 2, 0, 0)]), 3);
    assert_eq!(steps, 168);
    assert!(rows.iter().all(|row| both.contains(row)));
    assert!(both.contains(&(mixed_number("VB"), 3, 7)));
    // With none, only single ones: 4 and 2 times 4.
    assert_eq!(whole(&e(), &mixed(&[(2, 0, 0, 0)]), 3), (12, vec![]));
}

/// "a last letter with no allowed one above it is dropped as T was"
#[test]
fn which_letter_comes_next() {
    let lent = Lent::new(&["CCCC"]);
    let search = lent
        .begin(&mixed(&[(2, 1, 0, 0), (1, 0, 0, 0)]), 1)
        .unwrap();
    let next = |letters: &str| {
        let mut search = search.clone();
        search.place = place(letters.len() as u8, mixed_number(letters));
        let (answer, _) = leg_of(&lent, &search, 1, 5);
        assert_eq!(answer.steps, 1, "{letters}");
        let place = answer.search.place;
        letters_in(Profile::Mixed, place.letters.into(), place.number)
    };
    for (letters, expected) in [
        ("A", "C"),
        ("C", "CA"),
        ("T", "R"),
        ("R", "Y"),
        ("V", "VA"),
        ("CT", "CR"),
        ("CV", "CVA"),
        ("CW", "CB"),
        // After one mixed letter T is the last.
        ("YA", "YC"),
        ("YT", "K"),
        ("VT", ""),
        // The second component has no mixed letter at all.
        ("CVT", "G"),
        ("CYT", "CK"),
        ("YCT", "YG"),
        ("VCT", "VG"),
        ("CCT", "CG"),
    ] {
        assert_eq!(next(letters), expected, "after {letters}");
    }
}

#[test]
fn k_of_16_and_17() {
    let sequence = "T".repeat(16);
    let lent = Lent::new(&[&sequence]);
    let longest = mixed(&[(12, 0, 0, 0), (4, 0, 0, 0)]);
    let last = 0x3333_3333_3333_3333;
    assert_eq!(whole(&lent, &longest, 1), (64, vec![(last, 1, 1)]));
    for over in [
        mixed(&[(12, 0, 0, 0), (5, 0, 0, 0)]),
        mixed(&[(3, 0, 0, 0); 6]),
    ] {
        assert_eq!(lent.begin(&over, 1), Err(refusal(7, 0)));
        let told = recover(&lent.letters, &lent.lengths, &over, 0, 0, &mut []);
        assert_eq!(told, Err(refusal(7, 0)));
    }

    // The last letter may be mixed: T, then those that stand for it.
    let one = mixed(&[(12, 0, 0, 0), (3, 0, 0, 0), (1, 1, 0, 0)]);
    let digits = [3, 5, 6, 9, 10, 11, 12];
    let rows: Vec<Row> = digits.iter().map(|d| (last - 3 + d, 1, 1)).collect();
    assert_eq!(whole(&lent, &one, 1), (15 * 4 + 14, rows.clone()));

    // Up to the last of them, with no room for it, saved and restored there.
    let search = lent.begin(&one, 1).unwrap();
    let (stopped, found) = leg_of(&lent, &search, 1_000, 6);
    assert_eq!((stopped.answer, stopped.steps), (Answer::Full, 72));
    assert_eq!(found, rows[..6]);
    assert_eq!(stopped.search.place, place(16, last - 3 + 12));
    let restored = restore_of(&lent, &save_of(&lent, &stopped.search));
    assert_eq!(restored, Ok(stopped.search.clone()));
    let (ended, found) = leg_of(&lent, &stopped.search, 9, 1);
    assert_eq!((ended.answer, ended.steps), (Answer::Ended, 2));
    assert_eq!(found, rows[6..]);
}

#[test]
fn motif_numbers_of_16_letters() {
    let lent = Lent::new(&["ACGTACGTACGTACGTACG"]);
    let all = mixed(&[(12, 12, 0, 0), (4, 4, 0, 0)]);
    let ask = |template, motif| {
        recover(&lent.letters, &lent.lengths, template, motif, 0, &mut [])
            .map(|answer| answer.length)
    };
    assert_eq!(ask(&all, mixed_number("ACGTACGTACGTACGT")), Ok(1));
    // From ACGT.. on, and from CGTA.. on.
    assert_eq!(ask(&all, mixed_number("MSKWMSKWMSKWMSKW")), Ok(2));
    assert_eq!(ask(&all, mixed_number("VVVVVVVVVVVVVVVV")), Ok(0));
    assert_eq!(ask(&all, 0xDDDD_DDDD_DDDD_DDDD), Ok(0));
    for at in 0..16 {
        for digit in [14, 15] {
            assert_eq!(ask(&all, digit << (4 * at)), Err(refusal(14, 0)));
        }
    }
    // Eleven and three mixed letters are too many here.
    let some = mixed(&[(12, 10, 0, 0), (4, 2, 0, 0)]);
    assert_eq!(ask(&some, mixed_number("ACRRRRRRRRRRACYY")), Ok(0));
    for motif in ["ARRRRRRRRRRRACYY", "ACRRRRRRRRRRAYYY", "RRRRRRRRRRRRRRRR"] {
        assert_eq!(ask(&some, mixed_number(motif)), Err(refusal(14, 0)));
    }
}
