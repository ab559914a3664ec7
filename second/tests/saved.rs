//! Saves and restores.

mod common;

use common::*;
use second::{save, Search};

/// A search over E at every place it passes, the ended one too.
fn places_of_e(quorum: u64) -> Vec<Search> {
    let lent = e();
    let mut search = lent.begin(&e_template(), quorum).unwrap();
    let mut searches = vec![search.clone()];
    while search.place != place(0, 0) {
        search = leg_of(&lent, &search, 1, 1).0.search;
        searches.push(search.clone());
    }
    searches
}

#[test]
fn every_place_of_e_goes_there_and_back() {
    for quorum in 1..=3 {
        for search in places_of_e(quorum) {
            let bytes = save_of(&e(), &search);
            assert_eq!(bytes.len(), 64);
            assert_eq!(restore_of(&e(), &bytes), Ok(search));
        }
    }
}

#[test]
fn an_ended_search_restores_as_ended() {
    let lent = e();
    let search = places_of_e(2).pop().unwrap();
    let bytes = save_of(&lent, &search);
    assert_eq!(
        bytes[48..],
        [3, 0, 0, 0, 0, 0, 0, 0, 0, 0, 0, 0, 0, 0, 0, 0]
    );
    assert_eq!(restore_of(&lent, &bytes).unwrap().place, place(0, 0));
}

#[test]
fn every_field_has_its_bytes() {
    let lent = Lent {
        letters: vec![b'T'; 0x1_0000],
        lengths: vec![0x100; 0x100],
    };
    let template = template(&[(12, 0, 0), (12, 0xAB, 0xCD), (8, 0, 0xFF)]);
    let mut search = lent.begin(&template, 0x100).unwrap();
    search.place = place(5, number("TTTTG"));
    let bytes = save_of(&lent, &search);
    assert_eq!(bytes.len(), 80);
    assert_eq!(
        bytes[..16],
        [1, 5, 0, 1, 0, 1, 32, 0, 0, 0, 1, 0, 0, 0, 0, 0]
    );
    assert_eq!(
        bytes[32..48],
        [2, 2, 12, 0, 0xAB, 0, 0xCD, 0, 0, 0, 0, 0, 0, 0, 0, 0]
    );
    assert_eq!(
        bytes[48..64],
        [2, 3, 8, 0, 0, 0, 0xFF, 0, 0, 0, 0, 0, 0, 0, 0, 0]
    );
    assert_eq!(
        bytes[64..],
        [3, 5, 0, 0, 0, 0, 0, 0, 0xFE, 3, 0, 0, 0, 0, 0, 0]
    );
    assert_eq!(restore_of(&lent, &bytes), Ok(search));
}

#[test]
fn every_truncation_is_refused() {
    for search in places_of_e(2) {
        let bytes = save_of(&e(), &search);
        for length in 0..bytes.len() {
            assert_eq!(restore_of(&e(), &bytes[..length]), Err(refusal(10, 0)));
        }
        let mut longer = bytes.clone();
        for _ in 0..32 {
            longer.push(0);
            assert_eq!(restore_of(&e(), &longer), Err(refusal(10, 0)));
        }
    }
}

#[test]
fn every_changed_byte_is_refused_or_says_what_it_restores() {
    let mut restored_ones = 0;
    for quorum in 1..=3 {
        for search in places_of_e(quorum) {
            let bytes = save_of(&e(), &search);
            for at in 0..bytes.len() {
                for value in 0..=255 {
                    let mut changed = bytes.clone();
                    changed[at] = value;
                    match restore_of(&e(), &changed) {
                        Ok(restored) => {
                            assert_eq!(restored == search, changed == bytes);
                            assert_eq!(save_of(&e(), &restored), changed);
                            restored_ones += 1;
                        }
                        Err(told) => assert!(matches!(told.number, 6 | 8..=13 | 21..=23)),
                    }
                }
            }
        }
    }
    assert!(restored_ones > 1_000);
}

#[test]
fn a_save_needs_its_length_and_leaves_the_rest() {
    let lent = e();
    let search = lent.begin(&e_template(), 2).unwrap();
    for length in 0..64 {
        let mut out = vec![0xEE; length];
        let answer = save(&lent.letters, &lent.lengths, &search, &mut out);
        assert_eq!(answer, Err(refusal(17, 0)));
        assert!(out.iter().all(|byte| *byte == 0xEE));
    }
    let mut out = vec![0xEE; 70];
    assert_eq!(
        save(&lent.letters, &lent.lengths, &search, &mut out),
        Ok(64)
    );
    assert_eq!(out[64..], [0xEE; 6]);
}

#[test]
fn random_bytes_are_never_taken_for_another_search() {
    let lent = e();
    let good = save_of(&lent, &places_of_e(2)[5]);
    let mut random = Random::new(31);
    for _ in 0..20_000 {
        let mut bytes = good.clone();
        for _ in 0..1 + random.below(4) {
            let at = random.below(bytes.len() as u64) as usize;
            bytes[at] = random.below(6) as u8;
        }
        if let Ok(restored) = restore_of(&lent, &bytes) {
            assert_eq!(save_of(&lent, &restored), bytes);
        }
    }
}
