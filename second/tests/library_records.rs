//! The linked library on the saves of E that are bad: which number it gives,
//! and which record it tells. A leg from such bytes has to say the same, and
//! nothing may be written.

use tulfasheq::{leg, restore, save, Search};

mod linked;

use linked::*;

/// What the restore of these bytes is refused with, and a leg from them.
fn refused_with(bytes: &[u8]) -> (u8, u64) {
    let (mut shape, mut allowances) = ([7; 18], [7; 6]);
    let told = restore(LETTERS, LENGTHS, bytes, &mut shape, &mut allowances);
    let told = told.expect_err("a refusal");
    assert_eq!((shape, allowances), ([7; 18], [7; 6]));

    let mut saved = bytes.to_vec();
    let (mut motifs, mut supports, mut weights) = ([7; 4], [7; 4], [7; 4]);
    let (m, s, w) = (&mut motifs[..], &mut supports[..], &mut weights[..]);
    assert_eq!(leg(LETTERS, LENGTHS, &mut saved, 99, m, s, w), Err(told));
    assert_eq!((motifs, supports, weights), ([7; 4], [7; 4], [7; 4]));
    assert_eq!(saved, bytes);
    (told.number, told.place)
}

/// Changes of a save, and the number and the record that are told.
type Changes = (&'static [(usize, u8)], u8, u64);

/// Of a new search.
const OF_EXACT: &[Changes] = &[
    (&[(0, 2)], 11, 0),
    (&[(15, 1)], 21, 0),
    (&[(12, 255)], 21, 0),
    (&[(6, 3)], 22, 0),
    (&[(7, 1)], 22, 0),
    (&[(16, 3)], 11, 1),
    (&[(17, 2)], 11, 1),
    (&[(18, 2)], 22, 0),
    (&[(19, 1)], 21, 1),
    (&[(31, 1)], 21, 1),
    (&[(32, 0)], 11, 2),
    (&[(33, 1)], 11, 2),
    (&[(34, 13)], 22, 0),
    (&[(35, 128)], 21, 2),
    (&[(40, 1)], 21, 2),
    (&[(48, 2)], 11, 3),
    (&[(49, 3)], 23, 3),
    (&[(50, 1)], 21, 3),
    (&[(55, 1)], 21, 3),
    (&[(56, 4)], 23, 3),
    (&[(63, 1)], 23, 3),
    // The number comes first, and then the record.
    (&[(12, 2), (48, 1)], 11, 3),
    (&[(16, 1), (32, 1)], 11, 1),
    (&[(17, 9), (32, 1)], 11, 1),
    (&[(6, 0), (50, 1)], 21, 3),
    (&[(24, 1), (40, 1)], 21, 1),
    (&[(6, 0), (49, 9)], 22, 0),
    (&[(18, 13), (6, 14), (49, 15)], 23, 3),
    (&[(2, 0), (4, 9), (20, 1), (63, 1)], 23, 3),
];

/// Of a mixed search on its way: its profile and its allowances, too.
const OF_MIXED: &[Changes] = &[
    (&[(12, 2)], 21, 0),
    (&[(12, 255)], 21, 0),
    (&[(12, 0)], 21, 2),
    (&[(13, 1)], 21, 0),
    (&[(12, 2), (48, 1)], 11, 3),
    (&[(19, 2)], 24, 0),
    (&[(35, 255)], 24, 0),
    (&[(35, 0)], 23, 3),
    (&[(56, 14)], 23, 3),
    (&[(56, 15)], 23, 3),
    (&[(56, 0x47)], 23, 3),
    (&[(57, 1)], 23, 3),
    (&[(49, 3)], 23, 3),
    (&[(56, 0x17)], 13, 0),
    (&[(35, 255), (4, 9)], 24, 0),
    (&[(35, 255), (36, 2)], 8, 2),
    (&[(18, 12), (34, 5), (35, 9), (6, 17), (56, 0)], 7, 0),
    (&[(18, 12), (34, 4), (35, 5), (6, 16), (56, 0)], 24, 0),
];

#[test]
fn a_save_that_is_changed() {
    for (right, cases) in [(begun(EXACT, 2), OF_EXACT), (walked(MIXED), OF_MIXED)] {
        for (changes, number, record) in cases {
            let mut bytes = right.clone();
            for (at, value) in *changes {
                bytes[*at] = *value;
            }
            assert_eq!(refused_with(&bytes), (*number, *record), "{changes:?}");
        }
    }
}

#[test]
fn a_save_of_a_place_that_breaks_its_rule() {
    let shape = [1, 0, 0].repeat(6);
    for components in [0, 1, 2, 3, 4, 5, 6, 7, 65_535] {
        for (next_letters, next_number) in [(0, 1), (1, 4), (7, 0), (33, 0), (255, u64::MAX)] {
            let search = Search {
                components,
                ..at(EXACT, 2, next_letters, next_number)
            };
            let (number, place) = match components {
                1..=6 => (23, u64::from(components) + 1),
                _ => (5, 0),
            };
            let mut out = [7; 128];
            let told = save(LETTERS, LENGTHS, &search, &shape, &[], &mut out);
            assert_eq!(told, Err(refused(number, place)));
            assert_eq!(out, [7; 128]);
        }
    }
}
