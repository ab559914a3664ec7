//! Which record of a save is bad, and how, in both profiles: what every change
//! of a byte tells, and what of several changes comes first.

mod common;

use common::saves::{changed, saved, Told};
use second::Profile;
use std::ops::RangeInclusive;

/// Bytes of which every other value tells the same: the number, the record or
/// another place.
type Same = (RangeInclusive<usize>, u8, u64);

const IN_BOTH: [Same; 19] = [
    (0..=0, 11, 0),
    (1..=1, 10, 0),
    (3..=3, 9, 0),
    (4..=5, 12, 0),
    (6..=7, 22, 0),
    (8..=11, 12, 0),
    (13..=15, 21, 0),
    (16..=17, 11, 1),
    (18..=18, 22, 0),
    (20..=23, 8, 1),
    (24..=31, 21, 1),
    (32..=33, 11, 2),
    (34..=34, 22, 0),
    (37..=37, 8, 2),
    (39..=39, 8, 2),
    (40..=47, 21, 2),
    (48..=48, 11, 3),
    (50..=55, 21, 3),
    (57..=63, 23, 3),
];

const EXACT: [Same; 2] = [(19..=19, 21, 1), (35..=35, 21, 2)];

/// M alone is over the first component's allowance.
const MIXED: [Same; 1] = [(49..=49, 23, 3)];

/// The bytes of which the values differ, in either profile.
const OTHERS: [&[usize]; 2] = [&[2, 12, 36, 38, 49, 56], &[2, 12, 19, 35, 36, 38, 56]];

/// What one of those tells.
fn expected(profile: Profile, at: usize, value: u8) -> Told {
    use Profile::{Exact, Mixed};
    match (profile, at, value) {
        // The quorum is 1 to 3.
        (_, 2, 0 | 4..) => Some((9, 0)),
        // 1 makes the exact save one of the mixed profile, in which AT has the
        // same number. In the exact profile the mixed one's second component
        // has a byte 3 that has to be 0.
        (_, 12, 2..) => Some((21, 0)),
        (Mixed, 12, 0) => Some((21, 2)),
        // An allowance is at most the length, which is 1. Without one AM is
        // over it.
        (Mixed, 19 | 35, 2..) => Some((24, 0)),
        (Mixed, 35, 0) => Some((23, 3)),
        // l is at most u, which is 1; u may be anything up to 255.
        (_, 36, 2..) => Some((8, 2)),
        // T is a candidate too. No other place with number 3 keeps its rule.
        (Exact, 49, 0 | 3..) => Some((23, 3)),
        // A number of two letters is below 16. Every letter is frequent at
        // quorum 2, so that each such number is a candidate.
        (Exact, 56, 16..) => Some((23, 3)),
        // Digits of 14 and 15 are no letters, and the first letter is single.
        (Mixed, 56, 0x40..) => Some((23, 3)),
        (Mixed, 56, _) if value % 16 > 13 => Some((23, 3)),
        // At quorum 3, C and G are not frequent.
        (Mixed, 56, 0x10..=0x2F) => Some((13, 0)),
        _ => None,
    }
}

#[test]
fn every_change_of_a_byte() {
    for (profile, own, others) in [
        (Profile::Exact, &EXACT[..], OTHERS[0]),
        (Profile::Mixed, &MIXED[..], OTHERS[1]),
    ] {
        let right = saved(profile);
        let mut judged = others.to_vec();
        let each = |at: usize, expected: &dyn Fn(u8) -> Told| {
            for value in (0..=255).filter(|value| *value != right[at]) {
                let told = changed(profile, &[(at, value)]);
                assert_eq!(told, expected(value), "{profile:?}, {value} in byte {at}");
            }
        };
        for (bytes, number, place) in IN_BOTH.iter().chain(own) {
            judged.extend(bytes.clone());
            for at in bytes.clone() {
                each(at, &|_| Some((*number, *place)));
            }
        }
        for at in others {
            each(*at, &|value| expected(profile, *at, value));
        }
        judged.sort();
        assert_eq!(judged, (0..64).collect::<Vec<_>>(), "each byte once");
    }
}

/// Several changes of a save, and the number and the record that are told; 0 is
/// none.
type Several = (&'static [(usize, u8)], u8, u64);

#[test]
fn the_number_comes_first_and_then_the_record() {
    let exact: &[Several] = &[
        // 11 of the last record before 21 of the first, and 22 and 23.
        (&[(48, 4), (12, 2), (6, 1), (63, 1)], 11, 3),
        (&[(48, 2), (19, 1)], 11, 3),
        (&[(33, 9), (15, 1)], 11, 2),
        // 21 of the last record before 22, which tells the first.
        (&[(55, 1), (6, 0)], 21, 3),
        (&[(50, 1), (18, 200)], 21, 3),
        (&[(24, 1), (49, 77)], 21, 1),
        // 22 before 23.
        (&[(7, 1), (63, 1)], 22, 0),
        (&[(34, 0), (49, 3)], 22, 0),
        // 23 before the rest: 6, 8, 12, 9.
        (&[(49, 0), (18, 13), (6, 14)], 23, 3),
        (&[(49, 0), (18, 0), (6, 1)], 23, 3),
        (&[(56, 16), (20, 1)], 23, 3),
        (&[(56, 16), (4, 1)], 23, 3),
        (&[(56, 16), (2, 0)], 23, 3),
        // Of two records bad in the same way, the first.
        (&[(0, 2), (48, 2)], 11, 0),
        (&[(16, 3), (32, 3)], 11, 1),
        (&[(17, 2), (33, 1)], 11, 1),
        (&[(16, 1), (33, 1)], 11, 1),
        (&[(17, 3), (32, 1)], 11, 1),
        (&[(33, 3), (48, 1)], 11, 2),
        (&[(15, 1), (31, 1)], 21, 0),
        (&[(31, 1), (35, 1)], 21, 1),
        (&[(47, 1), (50, 1)], 21, 2),
        // Both bytes of one record.
        (&[(32, 1), (33, 1)], 11, 2),
        (&[(32, 1), (40, 1)], 11, 2),
        (&[(13, 1), (6, 1)], 21, 0),
        (&[(49, 3), (51, 1)], 21, 3),
        // Two changes of the lengths that leave their sum as it is.
        (&[(18, 2), (34, 0)], 6, 2),
    ];
    let mixed: &[Several] = &[
        // 11 before the profile's 21, and that before the components'.
        (&[(12, 2), (48, 1)], 11, 3),
        (&[(12, 2), (19, 1)], 21, 0),
        (&[(12, 9), (31, 1)], 21, 0),
        (&[(12, 0), (19, 1)], 21, 1),
        (&[(12, 0), (6, 1)], 21, 2),
        (&[(12, 255), (6, 1), (49, 9)], 21, 0),
        // The exact profile again, in which AM's number is that of CT.
        (&[(12, 0), (35, 0), (2, 2)], 0, 0),
        (&[(12, 0), (35, 0)], 13, 0),
        (&[(12, 0), (35, 0), (56, 16)], 23, 3),
        // 22, then 23, before 24.
        (&[(35, 2), (6, 3)], 22, 0),
        (&[(35, 2), (56, 14)], 23, 3),
        (&[(19, 2), (56, 0x45)], 24, 0),
        // 6, 7 and 8 before 24, and that before 12, 9 and 13.
        (&[(35, 255), (34, 13), (6, 14)], 6, 2),
        (&[(35, 255), (34, 12), (18, 5), (19, 1), (6, 17)], 7, 0),
        (&[(35, 255), (36, 2)], 8, 2),
        (&[(35, 255), (4, 9)], 24, 0),
        (&[(35, 255), (2, 0)], 24, 0),
        (&[(35, 255), (56, 0x10)], 24, 0),
        (&[(19, 255), (56, 0x10)], 24, 0),
        // An allowance as long as the component.
        (&[(19, 1), (56, 0x45)], 0, 0),
        (&[(34, 12), (35, 12), (6, 13)], 0, 0),
        (&[(34, 12), (35, 13), (6, 13)], 24, 0),
    ];
    for (profile, several) in [(Profile::Exact, exact), (Profile::Mixed, mixed)] {
        for (changes, number, record) in several {
            let told = (*number != 0).then_some((*number, *record));
            assert_eq!(changed(profile, changes), told, "{profile:?}, {changes:?}");
        }
    }
}
