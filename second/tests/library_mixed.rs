//! The linked library in the mixed profile, as far as that differs from the exact
//! one: occurrences of a mixed motif, numbers of a profile that there is not, and
//! arrays of allowances that end early or late.

use tulfasheq::{begin, leg, recover, restore, save};
use tulfasheq::{Leg, Recovered, Search, Stop, Template};

mod linked;

use linked::*;

#[test]
fn the_occurrences_of_ab() {
    let mut out = [7; 16];
    let told = recover(LETTERS, LENGTHS, MIXED, 10, 0, &mut out).unwrap();
    assert_eq!(told, Recovered { rows: 5, length: 5 });
    assert_eq!(out, [1, 1, 2, 1, 1, 3, 2, 2, 3, 2, 2, 4, 3, 1, 2, 7]);
}

/// "An allowance past the array's end is 0; what goes past the components that
/// there can be is not read."
#[test]
fn allowances_that_end_early_or_late() {
    let mut saved = [0; 64];
    for (allowances, told) in [
        (&[][..], [0, 0]),
        (&[1], [1, 0]),
        (&[0, 1], [0, 1]),
        (&[1, 0, 9, 65_535], [1, 0]),
        (&[0, 1, 0, 0, 0, 0, 9, 9], [0, 1]),
    ] {
        let template = Template {
            allowances,
            ..MIXED
        };
        assert_eq!(begin(LETTERS, LENGTHS, template, 3, &mut saved), Ok(64));
        assert_eq!(
            (saved[12], saved[19], saved[35]),
            (1, told[0] as u8, told[1] as u8)
        );
        let mut out = [0; 64];
        let size = save(
            LETTERS,
            LENGTHS,
            &at(MIXED, 3, 1, 0),
            &SHAPE,
            allowances,
            &mut out,
        );
        assert_eq!(size, Ok(64));
        assert_eq!(out, saved);
        // AB is a motif only where its B is allowed.
        let length = recover(LETTERS, LENGTHS, template, 10, 0, &mut []).map(|told| told.length);
        assert_eq!(
            length,
            if told[1] == 1 {
                Ok(5)
            } else {
                Err(refused(14, 0))
            }
        );
    }
}

#[test]
fn allowances_above_the_length() {
    let mut saved = [7; 64];
    for allowances in [[2, 0], [0, 2], [0, 65_535], [256, 0]] {
        let template = Template {
            allowances: &allowances,
            ..MIXED
        };
        let refusal = Err(refused(24, 0));
        assert_eq!(begin(LETTERS, LENGTHS, template, 3, &mut saved), refusal);
        let told = save(
            LETTERS,
            LENGTHS,
            &at(MIXED, 3, 1, 0),
            &SHAPE,
            &allowances,
            &mut saved,
        );
        assert_eq!(told, refusal);
        assert_eq!(saved, [7; 64]);
        let mut out = [7; 6];
        let told = recover(LETTERS, LENGTHS, template, 0, 0, &mut out);
        assert_eq!(told, Err(refused(24, 0)));
        assert_eq!(out, [7; 6]);
        // The exact profile does not look at them, nor save them.
        let exact = Template {
            profile: 0,
            ..template
        };
        let mut saved = [7; 64];
        assert_eq!(begin(LETTERS, LENGTHS, exact, 2, &mut saved), Ok(64));
        assert_eq!((saved[12], saved[19], saved[35]), (0, 0, 0));
        let mut told = [7; 6];
        let search = restore(LETTERS, LENGTHS, &saved, &mut [], &mut told);
        assert_eq!(search.map(|search| search.profile), Ok(0));
        assert_eq!(told, [0; 6]);
    }
}

/// A number that is no profile's is refused with 21 and place 0, after 1 to 5 and
/// before all else.
#[test]
fn a_profile_that_there_is_not() {
    let spoilt = b"ACGTACAGGTAN";
    let (mut saved, mut out) = ([7; 64], [7; 6]);
    for profile in [2, 3, 255, 256, 257, 65_535] {
        for letters in [LETTERS, spoilt] {
            // All else right, and all else wrong.
            for (components, quorum) in [
                (2, 3),
                (1, 0),
                (6, u64::MAX),
                (0, 0),
                (0, 3),
                (7, 9),
                (65_535, u64::MAX),
            ] {
                let told = match components {
                    _ if letters == spoilt => refused(4, 11),
                    1..=6 => refused(21, 0),
                    _ => refused(5, 0),
                };
                for allowances in [[0, 1], [9, 65_535]] {
                    let template = Template {
                        profile,
                        components,
                        shape: &SHAPE,
                        allowances: &allowances,
                    };
                    let begun = begin(letters, LENGTHS, template, quorum, &mut saved);
                    assert_eq!(begun, Err(told), "{template:?}");
                    let search = Search {
                        profile,
                        components,
                        next_number: quorum,
                        ..at(MIXED, quorum, 1, 0)
                    };
                    let size = save(letters, LENGTHS, &search, &SHAPE, &allowances, &mut saved);
                    assert_eq!(size, Err(told), "{search:?}");
                    for motif in [0, u64::MAX] {
                        let rows = recover(letters, LENGTHS, template, motif, motif, &mut out);
                        assert_eq!(rows, Err(told), "{template:?}");
                    }
                }
            }
        }
        // Lengths (6), letters in all (7) and ranges (8) come behind it.
        for shape in [
            [0, 0, 0, 1, 0, 1],
            [1, 0, 0, 13, 0, 1],
            [12, 0, 0, 12, 0, 1],
            [1, 0, 1, 1, 0, 1],
            [1, 0, 0, 1, 2, 1],
        ] {
            let told = refused(21, 0);
            let template = Template {
                profile,
                shape: &shape,
                ..MIXED
            };
            let begun = begin(LETTERS, LENGTHS, template, 3, &mut saved);
            assert_eq!(begun, Err(told), "{template:?}");
            let search = at(template, 3, 1, 0);
            let size = save(LETTERS, LENGTHS, &search, &shape, &[0, 1], &mut saved);
            assert_eq!(size, Err(told), "{template:?}");
            let rows = recover(LETTERS, LENGTHS, template, 0, 0, &mut out);
            assert_eq!(rows, Err(told), "{template:?}");
        }
        // 1 to 3 come first, too.
        let template = Template { profile, ..MIXED };
        let begun = begin(LETTERS, &[], template, 3, &mut saved);
        assert_eq!(begun, Err(refused(1, 0)));
        let begun = begin(LETTERS, &[5, 5, 3], template, 3, &mut saved);
        assert_eq!(begun, Err(refused(3, 0)));
        let long = vec![b'N'; 65_537];
        let begun = begin(&long, &[65_537], template, 3, &mut saved);
        assert_eq!(begun, Err(refused(2, 0)));
    }
    assert_eq!((saved, out), ([7; 64], [7; 6]));
}

/// Sixteen letters, the last of them any that stands for T; and seventeen.
#[test]
fn motifs_of_16_letters() {
    let letters = [b'T'; 20];
    let shape = [12, 0, 0, 3, 0, 0, 1, 1, 4];
    let template = Template {
        profile: 1,
        components: 3,
        shape: &shape,
        allowances: &[0, 0, 1],
    };
    let mut saved = [0; 80];
    assert_eq!(begin(&letters, &[20], template, 1, &mut saved), Ok(80));
    let (mut motifs, mut supports, mut weights) = ([9; 8], [9; 8], [9; 8]);
    let (m, s, w) = (&mut motifs[..], &mut supports[..], &mut weights[..]);
    let told = leg(&letters, &[20], &mut saved, 99, m, s, w).unwrap();
    let (stop, steps, rows) = (Stop::Ended, 74, 7);
    assert_eq!(told, Leg { stop, steps, rows });
    let last = 0x3333_3333_3333_3330;
    let digits = [3, 5, 6, 9, 10, 11, 12].map(|digit| last + digit);
    assert_eq!(motifs[..7], digits);
    assert_eq!(
        (supports[..7].to_vec(), weights[..7].to_vec()),
        (vec![1; 7], vec![10; 7])
    );
    for (motif, told) in digits.map(|motif| (motif, Ok(10))).into_iter().chain([
        (last + 13, Ok(0)),
        (last + 14, Err(refused(14, 0))),
        (u64::MAX, Err(refused(14, 0))),
        (0x4333_3333_3333_3333, Err(refused(14, 0))),
    ]) {
        let length = recover(&letters, &[20], template, motif, 0, &mut []).map(|told| told.length);
        assert_eq!(length, told, "{motif:x}");
    }

    let mut longer = shape;
    longer[3] = 4;
    let template = Template {
        shape: &longer,
        ..template
    };
    let told = begin(&letters, &[20], template, 1, &mut saved);
    assert_eq!(told, Err(refused(7, 0)));
    let exact = Template {
        profile: 0,
        ..template
    };
    assert_eq!(begin(&letters, &[20], exact, 1, &mut saved), Ok(80));
}
