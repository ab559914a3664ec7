//! The refusals one by one, where other files do not tell them all.

mod common;

use common::*;
use second::{begin, leg, profile_of, save, Answer, Profile, Search};

/// What a leg and a save say of a search value; they must agree.
fn refused(lent: &Lent, search: &Search) -> Option<(u8, u64)> {
    let saved = save(&lent.letters, &lent.lengths, search, &mut [0; 200]);
    let answer = leg(
        &lent.letters,
        &lent.lengths,
        search,
        0,
        &mut [0; 1],
        &mut [0; 1],
        &mut [0; 1],
    );
    assert_eq!(answer.search, *search);
    match answer.answer {
        Answer::Refused(told) => {
            assert_eq!(saved, Err(told));
            Some((told.number, told.place))
        }
        _ => {
            assert!(saved.is_ok());
            None
        }
    }
}

#[test]
fn lengths_that_do_not_add_up() {
    let one = template(&[(1, 0, 0)]);
    for lengths in [
        &[3][..],
        &[5],
        &[2, 1],
        &[u32::MAX, 5],
        &[u32::MAX; 1_024],
        &[0],
    ] {
        assert_eq!(begin(b"ACGT", lengths, &one, 1), Err(refusal(3, 0)));
    }
    assert!(begin(b"ACGT", &[0, 4, 0], &one, 1).is_ok());
}

#[test]
fn bytes_that_are_no_letters() {
    let one = template(&[(1, 0, 0)]);
    for byte in 0..=255 {
        let begun = begin(&[b'T', byte, b'N'], &[1, 2], &one, 1);
        let place = if b"ACGT".contains(&byte) { 2 } else { 1 };
        assert_eq!(begun, Err(refusal(4, place)));
    }
}

#[test]
fn the_first_wrong_component_is_told() {
    let lent = e();
    let lengths = |lengths: &[u8]| {
        let parts: Vec<_> = lengths.iter().map(|length| (*length, 0, 0)).collect();
        lent.begin(&template(&parts), 1)
    };
    assert_eq!(lengths(&[0, 1, 0]), Err(refusal(6, 1)));
    assert_eq!(lengths(&[1, 1, 1, 1, 1, 13]), Err(refusal(6, 6)));
    assert_eq!(lengths(&[12, 12, 12, 0]), Err(refusal(6, 4)));
    assert_eq!(lengths(&[6, 6, 6, 6, 6, 3]), Err(refusal(7, 0)));
    let ranges = |ranges: &[(u16, u16)]| {
        let parts: Vec<_> = ranges.iter().map(|(low, high)| (1, *low, *high)).collect();
        lent.begin(&template(&parts), 1)
    };
    assert_eq!(
        ranges(&[(0, 0), (1, 1), (2, 1), (0, 300)]),
        Err(refusal(8, 3))
    );
    assert_eq!(
        ranges(&[(0, 0), (1, 1), (2, 2), (0, 300)]),
        Err(refusal(8, 4))
    );
    assert_eq!(ranges(&[(0, 1), (1, 0)]), Err(refusal(8, 1)));
}

#[test]
fn the_place_rule_of_a_search_value() {
    let lent = e();
    let mut search = lent.begin(&e_template(), 2).unwrap();
    for wrong in [
        place(3, 0),
        place(255, 0),
        place(2, 16),
        place(1, 4),
        place(0, 1),
    ] {
        search.place = wrong;
        assert_eq!(refused(&lent, &search), Some((23, 3)));
    }
    for wrong in [place(0, u64::MAX), place(2, u64::MAX)] {
        search.place = wrong;
        assert_eq!(refused(&lent, &search), Some((23, 3)));
    }
    for right in [place(0, 0), place(1, 0), place(1, 3), place(2, 11)] {
        search.place = right;
        assert_eq!(refused(&lent, &search), None);
    }
}

#[test]
fn the_place_rule_comes_before_bad_lengths() {
    let lent = e();
    let mut search = lent.begin(&e_template(), 2).unwrap();
    search.template = template(&[(255, 0, 0); 6]);
    search.place = place(255, u64::MAX);
    assert_eq!(refused(&lent, &search), Some((6, 1)));
    search.template = template(&[(12, 0, 0), (12, 0, 0), (12, 0, 0)]);
    for (letters, number, told) in [
        (36, u64::MAX, (7, 0)),
        (37, 0, (23, 4)),
        (33, u64::MAX, (7, 0)),
        (32, u64::MAX, (7, 0)),
        (31, 1 << 62, (23, 4)),
        (31, (1 << 62) - 1, (7, 0)),
    ] {
        search.place = place(letters, number);
        assert_eq!(refused(&lent, &search), Some(told));
    }
    search.template = template(&[(0, 0, 0)]);
    search.place = place(1, 0);
    assert_eq!(refused(&lent, &search), Some((23, 2)));
    search.place = place(0, 0);
    assert_eq!(refused(&lent, &search), Some((6, 1)));
    search.template = template(&vec![(255, 9, 0); 300]);
    search.place = place(255, u64::MAX);
    assert_eq!(refused(&lent, &search), Some((5, 0)));
}

#[test]
fn the_place_record_comes_after_one_for_each_component() {
    let lent = e();
    let mut search = lent.begin(&e_template(), 2).unwrap();
    for components in 0..=8 {
        search.template = template(&vec![(1, 0, 0); components]);
        let told = match components {
            1..=6 => (23, components as u64 + 1),
            _ => (5, 0),
        };
        for wrong in [place(0, 1), place(1, 4), place(components as u8 + 1, 0)] {
            search.place = wrong;
            assert_eq!(refused(&lent, &search), Some(told));
        }
    }
}

#[test]
fn counts_and_quorum_of_a_search_value() {
    let lent = e();
    let search = lent.begin(&e_template(), 2).unwrap();
    let changed = |change: fn(&mut Search)| {
        let mut search = search.clone();
        change(&mut search);
        refused(&lent, &search)
    };
    assert_eq!(changed(|search| search.sequences = 2), Some((12, 0)));
    assert_eq!(
        changed(|search| search.sequences = 3 + 65_536),
        Some((12, 0))
    );
    assert_eq!(changed(|search| search.letters = 11), Some((12, 0)));
    assert_eq!(changed(|search| search.letters = u32::MAX), Some((12, 0)));
    assert_eq!(changed(|search| search.quorum = 0), Some((9, 0)));
    assert_eq!(changed(|search| search.quorum = 4), Some((9, 0)));
    assert_eq!(changed(|search| search.quorum = 2 + 65_536), Some((9, 0)));
    assert_eq!(changed(|search| search.quorum = u64::MAX), Some((9, 0)));
    assert_eq!(changed(|search| search.quorum = 3), None);
}

#[test]
fn places_that_are_no_candidates() {
    let lent = e();
    let mut search = lent.begin(&e_template(), 3).unwrap();
    for second_letter in 0..4 {
        for (first_letter, told) in [(0, None), (1, Some((13, 0))), (2, Some((13, 0))), (3, None)] {
            search.place = place(2, first_letter * 4 + second_letter);
            assert_eq!(refused(&lent, &search), told);
        }
    }
}

/// The place's letters are dealt out to the components in order, whatever their
/// lengths are: those are looked at later.
#[test]
fn the_place_rule_comes_before_bad_lengths_and_allowances() {
    for (components, letters, number, told) in [
        // A component of length 0 takes none.
        (&[(0, 9, 0, 0), (2, 0, 0, 0)][..], "AR", 23, 3),
        (&[(0, 0, 0, 0), (2, 1, 0, 0)], "AR", 6, 1),
        (&[(1, 0, 0, 0), (0, 0, 0, 0), (1, 1, 0, 0)], "AR", 6, 2),
        (&[(1, 0, 0, 0), (0, 9, 0, 0), (1, 0, 0, 0)], "AR", 23, 4),
        // Long ones take them all.
        (&[(255, 2, 0, 0), (1, 0, 0, 0)], "ARRA", 6, 1),
        (&[(255, 1, 0, 0), (1, 9, 0, 0)], "ARRA", 23, 3),
        (&[(12, 12, 0, 0), (5, 0, 0, 0)], "ARRRRRRRRRRRACGTA", 7, 0),
        (&[(12, 12, 0, 0), (5, 0, 0, 0)], "ARRRRRRRRRRRACGTR", 23, 3),
        // An allowance above the length allows all letters that there are.
        (&[(2, 65_535, 0, 0), (1, 0, 0, 0)], "RR", 24, 0),
        (&[(2, 65_535, 0, 0), (1, 0, 0, 0)], "RRR", 23, 3),
        (&[(2, 2, 0, 0), (1, 65_535, 0, 0)], "RRR", 24, 0),
        (&[(2, 1, 0, 0), (1, 65_535, 0, 0)], "RRR", 23, 3),
        (&[(2, 1, 1, 0), (1, 65_535, 0, 0)], "RAR", 8, 1),
        // Of 255 letters all but the last are As.
        (&[(255, 1, 0, 0)], &("A".repeat(253) + "RR"), 23, 2),
        (&[(255, 2, 0, 0)], &("A".repeat(253) + "RR"), 6, 1),
    ] {
        let search = Search {
            template: mixed(components),
            quorum: 3,
            sequences: 3,
            letters: 12,
            place: place(letters.len() as u8, mixed_number(letters)),
        };
        let refused = refused(&e(), &search);
        assert_eq!(refused, Some((number, told)), "{components:?} {letters}");
    }
}

/// "0 or 1 for the profile, else 21", where a call is passed its number: after the
/// sequences and the number of components.
#[test]
fn a_number_that_is_no_profile() {
    let e = e();
    let (letters, lengths) = (&e.letters[..], &e.lengths[..]);
    for (number, profile) in [(0, Profile::Exact), (1, Profile::Mixed)] {
        for components in [0, 1, 7, 65_535] {
            let told = profile_of(b"N", &[], components, number);
            assert_eq!(told, Ok(profile));
        }
    }
    for number in [2, 3, 255, 256, 257, 65_535] {
        for components in 0..=9 {
            let told = match components {
                1..=6 => refusal(21, 0),
                _ => refusal(5, 0),
            };
            let no_profile = profile_of(letters, lengths, components, number);
            assert_eq!(no_profile, Err(told));
            let spoilt = profile_of(b"ACN", &[3], components, number);
            assert_eq!(spoilt, Err(refusal(4, 2)));
            let longer = profile_of(letters, &[5, 5, 3], components, number);
            assert_eq!(longer, Err(refusal(3, 0)));
            let none = profile_of(b"", &[], components, number);
            assert_eq!(none, Err(refusal(1, 0)));
        }
    }
}
