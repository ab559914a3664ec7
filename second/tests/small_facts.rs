//! The paper's small facts p1 to p11 and its printout for E.

mod common;

use common::*;
use second::{join, leg, printout, recover, support, Answer, Recovered};

const E_INPUT: &[u8] = b"N[0,1]N\n2\nACGTA\nCAGGT\nAT\n";
const E_PRINTOUT: &[u8] = b"A[0,1]G 2 3\nC[0,1]G 2 2\nG[0,1]T 2 3\nend 20 3\n";

#[test]
fn e_is_printed_to_the_byte() {
    assert_eq!(printout(E_INPUT), E_PRINTOUT);
}

#[test]
fn p1_motif_numbers() {
    assert_eq!((number("AG"), number("CG"), number("GT")), (2, 6, 11));
    let (_, rows) = whole(&e(), &e_template(), 2);
    assert_eq!(rows.iter().map(|row| row.0).collect::<Vec<_>>(), [2, 6, 11]);
}

#[test]
fn p2_supports_in_e() {
    let lent = e();
    let ask = |letters| {
        support(
            &lent.letters,
            &lent.lengths,
            &e_template(),
            &place(2, number(letters)),
        )
    };
    assert_eq!(ask("AG"), Ok(2));
    assert_eq!(ask("AT"), Ok(1));
}

#[test]
fn p3_e_with_quorum_2() {
    let rows = vec![(2, 2, 3), (6, 2, 2), (11, 2, 3)];
    assert_eq!(whole(&e(), &e_template(), 2), (20, rows));
}

#[test]
fn p4_e_with_quorum_3() {
    assert_eq!(whole(&e(), &e_template(), 3), (12, vec![]));
}

#[test]
fn p5_rows_of_ag() {
    let lent = e();
    let mut out = [0; 10];
    let answer = recover(&lent.letters, &lent.lengths, &e_template(), 2, 0, &mut out);
    assert_eq!(answer, Ok(Recovered { rows: 3, length: 3 }));
    assert_eq!(out, [1, 1, 3, 2, 2, 3, 2, 2, 4, 0]);
}

#[test]
fn p6_aa_in_aaa() {
    let lent = Lent::new(&["AAA"]);
    let mut out = [0; 9];
    let answer = recover(&lent.letters, &lent.lengths, &e_template(), 0, 0, &mut out);
    assert_eq!(answer, Ok(Recovered { rows: 3, length: 3 }));
    assert_eq!(out, [1, 1, 2, 1, 1, 3, 1, 2, 3]);
    // Three occurrences from two starts: the weighted support counts the
    // former.
    let mut starts: Vec<u32> = out.chunks(3).map(|row| row[1]).collect();
    starts.dedup();
    assert_eq!(starts, [1, 2]);
    let (_, rows) = whole(&lent, &e_template(), 1);
    assert_eq!(rows, [(0, 1, 3)]);
}

#[test]
fn p7_join() {
    let mut out = [9; 3];
    assert_eq!(join(&[1, 4], &[3, 5], 1, 0, 1, &mut out), Ok(2));
    assert_eq!(out, [1, 4, 9]);
    let mut out = [9; 3];
    assert_eq!(join(&[1, 4], &[3, 5], 1, 0, 0, &mut out), Ok(1));
    assert_eq!(out, [4, 9, 9]);
}

#[test]
fn p8_after_at_and_after_tt() {
    let lent = e();
    let mut search = lent.begin(&e_template(), 2).unwrap();
    search.place = place(2, number("AT"));
    let (answer, _) = leg_of(&lent, &search, 1, 5);
    assert_eq!((answer.answer, answer.steps), (Answer::Spent, 1));
    assert_eq!(answer.search.place, place(1, number("C")));
    search.place = place(2, number("TT"));
    let (answer, _) = leg_of(&lent, &search, 1, 5);
    assert_eq!((answer.answer, answer.steps), (Answer::Ended, 1));
    assert_eq!(answer.search.place, place(0, 0));
}

#[test]
fn p9_the_save_after_4_steps() {
    let (rows, bytes) = walked(&e(), &e_template(), 2, 4);
    assert_eq!(rows, [(2, 2, 3)]);
    assert_eq!(bytes.len(), 64);
    assert_eq!(
        bytes[..16],
        [1, 4, 2, 0, 3, 0, 2, 0, 0x0C, 0, 0, 0, 0, 0, 0, 0]
    );
    assert_eq!(
        bytes[16..32],
        [2, 1, 1, 0, 0, 0, 0, 0, 0, 0, 0, 0, 0, 0, 0, 0]
    );
    assert_eq!(
        bytes[32..48],
        [2, 2, 1, 0, 0, 0, 1, 0, 0, 0, 0, 0, 0, 0, 0, 0]
    );
    assert_eq!(
        bytes[48..],
        [3, 2, 0, 0, 0, 0, 0, 0, 3, 0, 0, 0, 0, 0, 0, 0]
    );
}

#[test]
fn p10_its_first_63_bytes() {
    let lent = e();
    let search = lent.begin(&e_template(), 2).unwrap();
    let (answer, _) = leg_of(&lent, &search, 4, 5);
    let bytes = save_of(&lent, &answer.search);
    assert_eq!(restore_of(&lent, &bytes[..63]), Err(refusal(10, 0)));
}

#[test]
fn p11_quorum_3_with_place_ca() {
    let lent = e();
    let mut search = lent.begin(&e_template(), 2).unwrap();
    search.place = place(2, number("CA"));
    let mut bytes = save_of(&lent, &search);
    bytes[2] = 3;
    assert_eq!(restore_of(&lent, &bytes), Err(refusal(13, 0)));
    search.quorum = 3;
    let answer = leg(
        &lent.letters,
        &lent.lengths,
        &search,
        9,
        &mut [],
        &mut [],
        &mut [],
    );
    assert_eq!(answer.answer, Answer::Refused(refusal(13, 0)));
}
