//! The paper's facts that are run: the limits, on each side, and K = 32.

mod common;

use common::*;
use second::{recover, Answer, Recovered};

#[test]
fn sequences_1024_and_1025() {
    let one = template(&[(1, 0, 0)]);
    let full = Lent::new(&vec!["A"; 1_024]);
    assert_eq!(whole(&full, &one, 1_024), (4, vec![(0, 1_024, 1_024)]));
    assert_eq!(full.begin(&one, 1_025), Err(refusal(9, 0)));
    let over = Lent::new(&vec!["A"; 1_025]);
    assert_eq!(over.begin(&one, 1), Err(refusal(1, 0)));
    assert_eq!(Lent::new(&[]).begin(&one, 1), Err(refusal(1, 0)));
}

#[test]
fn letters_65536_and_65537() {
    let one = template(&[(1, 0, 0)]);
    let mut full = Lent {
        letters: vec![b'A'; 65_536],
        lengths: vec![65_536],
    };
    full.letters[65_535] = b'T';
    assert_eq!(whole(&full, &one, 1), (4, vec![(0, 1, 65_535), (3, 1, 1)]));
    let mut out = [0; 4];
    let answer = recover(&full.letters, &full.lengths, &one, 3, 0, &mut out);
    assert_eq!(answer, Ok(Recovered { rows: 1, length: 1 }));
    assert_eq!(out, [1, 65_536, 0, 0]);
    let over = Lent {
        letters: vec![b'A'; 65_537],
        lengths: vec![65_537],
    };
    assert_eq!(over.begin(&one, 1), Err(refusal(2, 0)));
}

#[test]
fn components_of_32_and_33_letters() {
    let lent = Lent::new(&["A"]);
    assert!(lent
        .begin(&template(&[(12, 0, 0), (12, 0, 0), (8, 0, 0)]), 1)
        .is_ok());
    let over = template(&[(12, 0, 0), (12, 0, 0), (9, 0, 0)]);
    assert_eq!(lent.begin(&over, 1), Err(refusal(7, 0)));
}

#[test]
fn number_of_components() {
    let lent = Lent::new(&["ACGTAC"]);
    for count in 0..=300 {
        let begun = lent.begin(&template(&vec![(1, 0, 0); count]), 1);
        if (1..=6).contains(&count) {
            assert!(begun.is_ok());
        } else {
            assert_eq!(begun, Err(refusal(5, 0)));
        }
    }
    let six = template(&[(1, 0, 0); 6]);
    // Frequent prefixes of 0 to 5 letters: 1, 4, 4, 4, 3, 2.
    assert_eq!(
        whole(&lent, &six, 1),
        (4 * 18, vec![(number("ACGTAC"), 1, 1)])
    );
}

#[test]
fn component_lengths() {
    let lent = Lent::new(&["A"]);
    for length in 0..=255 {
        let begun = lent.begin(&template(&[(1, 0, 0), (length, 0, 0)]), 1);
        if (1..=12).contains(&length) {
            assert!(begun.is_ok());
        } else {
            assert_eq!(begun, Err(refusal(6, 2)));
        }
    }
}

#[test]
fn gaps_of_255_and_256() {
    // The gap between the C and the T is 255.
    let sequence = format!("C{}T", "A".repeat(255));
    let lent = Lent::new(&[&sequence]);
    let wide = template(&[(1, 0, 0), (1, 255, 255)]);
    assert_eq!(whole(&lent, &wide, 1), (16, vec![(number("CT"), 1, 1)]));
    let narrow = template(&[(1, 0, 0), (1, 0, 254)]);
    let (_, rows) = whole(&lent, &narrow, 1);
    assert!(rows.iter().all(|row| row.0 != number("CT")));
    assert_eq!(
        lent.begin(&template(&[(1, 0, 0), (1, 0, 256)]), 1),
        Err(refusal(8, 2))
    );
    assert_eq!(
        lent.begin(&template(&[(1, 0, 0), (1, 256, 256)]), 1),
        Err(refusal(8, 2))
    );
    assert_eq!(
        lent.begin(&template(&[(1, 0, 0), (1, 0, 65_535)]), 1),
        Err(refusal(8, 2))
    );
}

#[test]
fn l_equal_to_u_and_above_it() {
    let lent = e();
    assert!(lent.begin(&template(&[(1, 0, 0), (1, 3, 3)]), 1).is_ok());
    assert_eq!(
        lent.begin(&template(&[(1, 0, 0), (1, 4, 3)]), 1),
        Err(refusal(8, 2))
    );
    assert_eq!(
        lent.begin(&template(&[(1, 0, 1), (1, 4, 3)]), 1),
        Err(refusal(8, 1))
    );
    assert_eq!(lent.begin(&template(&[(1, 1, 1)]), 1), Err(refusal(8, 1)));
}

#[test]
fn quorums() {
    let lent = e();
    assert_eq!(lent.begin(&e_template(), 0), Err(refusal(9, 0)));
    for quorum in 1..=3 {
        assert_eq!(
            lent.begin(&e_template(), quorum)
                .map(|search| search.quorum),
            Ok(quorum)
        );
    }
    for quorum in [4, 65_536 + 1, 65_536 * 65_536 + 1, u64::MAX] {
        assert_eq!(lent.begin(&e_template(), quorum), Err(refusal(9, 0)));
    }
}

#[test]
fn only_empty_sequences() {
    let lent = Lent::new(&["", "", ""]);
    for quorum in 1..=3 {
        assert_eq!(whole(&lent, &e_template(), quorum), (4, vec![]));
    }
    let mut out = [5; 3];
    let answer = recover(&lent.letters, &lent.lengths, &e_template(), 3, 0, &mut out);
    assert_eq!(answer, Ok(Recovered { rows: 0, length: 0 }));
    assert_eq!(out, [5; 3]);
}

#[test]
fn a_gap_never_crosses_into_the_next_sequence() {
    let lent = Lent::new(&["A", "", "C", "GT"]);
    let (steps, rows) = whole(&lent, &e_template(), 1);
    assert_eq!((steps, rows), (20, vec![(number("GT"), 1, 1)]));
}

#[test]
fn the_last_motif_of_32_letters_is_found() {
    let sequence = "T".repeat(32);
    let lent = Lent::new(&[&sequence]);
    let longest = template(&[(12, 0, 0), (12, 0, 0), (8, 0, 0)]);
    assert_eq!(whole(&lent, &longest, 1), (128, vec![(u64::MAX, 1, 1)]));

    // Up to the last candidate, with no room for it, saved and restored there.
    let search = lent.begin(&longest, 1).unwrap();
    let (stopped, _) = leg_of(&lent, &search, 1_000, 0);
    assert_eq!((stopped.answer, stopped.steps), (Answer::Full, 127));
    assert_eq!(stopped.search.place, place(32, u64::MAX));
    let restored = restore_of(&lent, &save_of(&lent, &stopped.search));
    assert_eq!(restored, Ok(stopped.search.clone()));
    let (ended, rows) = leg_of(&lent, &stopped.search, 1, 1);
    assert_eq!((ended.answer, ended.steps), (Answer::Ended, 1));
    assert_eq!(rows, [(u64::MAX, 1, 1)]);

    let mut out = [0; 4];
    let answer = recover(
        &lent.letters,
        &lent.lengths,
        &longest,
        u64::MAX,
        0,
        &mut out,
    );
    assert_eq!(answer, Ok(Recovered { rows: 1, length: 1 }));
    assert_eq!(out, [1, 1, 13, 25]);
}

#[test]
fn every_number_is_a_motif_at_32_letters() {
    let sequence = "GATTACAGATTACAGATTACAGATTACAGATT";
    let lent = Lent::new(&[sequence]);
    let longest = template(&[(12, 0, 0), (12, 0, 0), (8, 0, 0)]);
    let mut out = [0; 4];
    for (motif, length) in [(0, 0), (1 << 63, 0), (u64::MAX, 0), (number(sequence), 1)] {
        let answer = recover(&lent.letters, &lent.lengths, &longest, motif, 0, &mut out);
        assert_eq!(
            answer,
            Ok(Recovered {
                rows: length as usize,
                length
            })
        );
    }
}
