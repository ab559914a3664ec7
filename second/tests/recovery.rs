//! Recovery against trying every tuple, and lists too long to be written.

mod common;

use common::naive::naive_occurrences;
use common::*;
use second::{recover, Recovered};

#[test]
fn rows_are_those_of_trying_every_tuple() {
    let mut random = Random::new(41);
    let mut rows_seen = 0;
    for _ in 0..600 {
        let lent = random.sequences(4, 12, 2);
        let template = random.template(4);
        let k: usize = template
            .components
            .iter()
            .map(|part| part.length as usize)
            .sum();
        let letters: String = (0..k)
            .map(|_| b"AC"[random.below(2) as usize] as char)
            .collect();
        let expected = naive_occurrences(&lent, &template, &letters);
        let row = template.components.len() + 1;
        for first in 0..=expected.len() {
            let room = random.below(40) as usize;
            let mut out = vec![9_999; room];
            let answer = recover(
                &lent.letters,
                &lent.lengths,
                &template,
                number(&letters),
                first as u64,
                &mut out,
            );
            let rows = (room / row).min(expected.len() - first);
            assert_eq!(
                answer,
                Ok(Recovered {
                    rows,
                    length: expected.len() as u64
                })
            );
            assert_eq!(out[..rows * row], expected[first..first + rows].concat());
            assert!(out[rows * row..].iter().all(|number| *number == 9_999));
        }
        rows_seen += expected.len();
    }
    assert!(rows_seen > 1_000);
}

#[test]
fn a_first_row_above_the_length() {
    let lent = e();
    for (first, expected) in [
        (3, Ok(Recovered { rows: 0, length: 3 })),
        (4, Err(refusal(15, 0))),
        (u64::MAX, Err(refusal(15, 0))),
    ] {
        let mut out = [7; 9];
        let answer = recover(
            &lent.letters,
            &lent.lengths,
            &e_template(),
            2,
            first,
            &mut out,
        );
        assert_eq!(answer, expected);
        assert_eq!(out, [7; 9]);
    }
}

#[test]
fn a_motif_number_not_below_4_to_the_k() {
    let lent = e();
    let mut out = [7; 9];
    assert!(recover(&lent.letters, &lent.lengths, &e_template(), 15, 0, &mut out).is_ok());
    for motif in [16, 17, u64::MAX] {
        for first in [0, 1] {
            let answer = recover(
                &lent.letters,
                &lent.lengths,
                &e_template(),
                motif,
                first,
                &mut out,
            );
            assert_eq!(answer, Err(refusal(14, 0)));
        }
    }
    assert_eq!(out, [7; 9]);
}

#[test]
fn the_longest_list() {
    let lent = Lent {
        letters: vec![b'A'; 65_536],
        lengths: vec![65_536],
    };
    let widest = template(&[
        (1, 0, 0),
        (1, 0, 255),
        (1, 0, 255),
        (1, 0, 255),
        (1, 0, 255),
        (1, 0, 255),
    ]);
    let ask =
        |first, out: &mut [u32]| recover(&lent.letters, &lent.lengths, &widest, 0, first, out);
    let length = ask(0, &mut []).unwrap().length;
    // From each start that leaves room for the widest gaps there are 256^5.
    assert!(((65_536 - 1_280) << 40..65_536 << 40).contains(&length));
    assert_eq!(ask(length + 1, &mut []), Err(refusal(15, 0)));

    let mut out = [0; 15];
    assert_eq!(ask(0, &mut out), Ok(Recovered { rows: 2, length }));
    assert_eq!(out, [1, 1, 2, 3, 4, 5, 6, 1, 1, 2, 3, 4, 5, 7, 0]);
    let mut out = [0; 14];
    assert_eq!(
        ask((1 << 40) - 1, &mut out),
        Ok(Recovered { rows: 2, length })
    );
    assert_eq!(
        out,
        [1, 1, 257, 513, 769, 1_025, 1_281, 1, 2, 3, 4, 5, 6, 7]
    );
    let mut out = [0; 14];
    assert_eq!(ask(length - 1, &mut out), Ok(Recovered { rows: 1, length }));
    assert_eq!(
        out[..7],
        [1, 65_531, 65_532, 65_533, 65_534, 65_535, 65_536]
    );
    assert_eq!(out[7..], [0; 7]);
}

#[test]
fn positions_count_afresh_in_each_sequence() {
    let lent = Lent::new(&["", "CCA", "", "A"]);
    let one = template(&[(1, 0, 0)]);
    let mut out = [0; 6];
    let answer = recover(&lent.letters, &lent.lengths, &one, 0, 0, &mut out);
    assert_eq!(answer, Ok(Recovered { rows: 2, length: 2 }));
    assert_eq!(out, [2, 3, 4, 1, 0, 0]);
}
