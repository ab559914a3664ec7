//! The order of the checks: every set of faults at once, for every call, in
//! both profiles. The refusal must be the first by the call's order, and nothing
//! be written.

mod common;

use common::faults::each_set;
use common::*;
use second::{leg, recover, save, Answer};

#[test]
fn new_search() {
    each_set(&[1, 2, 3, 4, 5, 6, 7, 8, 24, 9], |faults, first| {
        let lent = faults.lent();
        let answer = lent.begin(&faults.template(), faults.quorum());
        assert_eq!(answer.err(), first);
    });
}

#[test]
fn restored_search() {
    const ORDER: &[u8] = &[1, 2, 3, 4, 10, 5, 11, 21, 22, 23, 6, 7, 8, 24, 12, 9, 13];
    each_set(ORDER, |faults, first| {
        let lent = faults.lent();
        let answer = restore_of(&lent, &faults.bytes(&lent));
        match first {
            Some(first) => assert_eq!(answer, Err(first)),
            None => assert_eq!(answer, Ok(faults.search(&lent))),
        }
    });
}

#[test]
fn a_leg() {
    const ORDER: &[u8] = &[1, 2, 3, 4, 5, 23, 6, 7, 8, 24, 12, 9, 13];
    each_set(ORDER, |faults, first| {
        let lent = faults.lent();
        let search = faults.search(&lent);
        let (answer, rows) = leg_of(&lent, &search, 9, 5);
        match first {
            Some(first) => {
                assert_eq!(answer.answer, Answer::Refused(first));
                assert_eq!((answer.steps, answer.rows, rows.len()), (0, 0, 0));
                assert_eq!(answer.search, search);
            }
            None => assert_eq!((answer.answer, answer.steps), (Answer::Spent, 9)),
        }
    });
}

#[test]
fn a_save() {
    const ORDER: &[u8] = &[1, 2, 3, 4, 5, 23, 6, 7, 8, 24, 12, 9, 13, 17];
    each_set(ORDER, |faults, first| {
        let lent = faults.lent();
        let search = faults.search(&lent);
        let mut out = vec![0xEE; if faults.has(17) { 79 } else { 300 }];
        let answer = save(&lent.letters, &lent.lengths, &search, &mut out);
        match first {
            Some(first) => {
                assert_eq!(answer, Err(first));
                assert!(out.iter().all(|byte| *byte == 0xEE));
            }
            None => assert_eq!((answer, &out[..80]), (Ok(80), &faults.bytes(&lent)[..])),
        }
    });
}

#[test]
fn a_recovery() {
    const ORDER: &[u8] = &[1, 2, 3, 4, 5, 6, 7, 8, 24, 14, 15];
    each_set(ORDER, |faults, first| {
        let lent = faults.lent();
        let first_row = if faults.has(15) { u64::MAX } else { 0 };
        let mut out = [0xEE; 40];
        let answer = recover(
            &lent.letters,
            &lent.lengths,
            &faults.template(),
            faults.motif(),
            first_row,
            &mut out,
        );
        match first {
            Some(first) => {
                assert_eq!(answer, Err(first));
                assert_eq!(out, [0xEE; 40]);
            }
            None => assert_eq!(
                answer.map(|answer| (answer.rows, answer.length)),
                Ok((1, 1))
            ),
        }
    });
}

#[test]
fn a_refused_leg_leaves_its_tables() {
    let lent = e();
    let mut search = lent.begin(&e_template(), 2).unwrap();
    search.quorum = 4;
    let (mut motifs, mut supports, mut weights) = ([1; 3], [2; 3], [3; 3]);
    let answer = leg(
        &lent.letters,
        &lent.lengths,
        &search,
        100,
        &mut motifs,
        &mut supports,
        &mut weights,
    );
    assert_eq!(answer.answer, Answer::Refused(refusal(9, 0)));
    assert_eq!((answer.steps, answer.rows), (0, 0));
    assert_eq!(answer.search, search);
    assert_eq!((motifs, supports, weights), ([1; 3], [2; 3], [3; 3]));
}
