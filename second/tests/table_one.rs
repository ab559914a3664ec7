//! The worked example of the source document, its Table 1.

mod common;

use common::naive::{naive_occurrences, naive_supports};
use common::*;
use second::{printout, recover, support, weighted_support, Recovered};

const SEQUENCES: [&str; 4] = [
    "CCGTACCGAACCTCAAA",
    "CCGTTATAGGAACCATT",
    "TATGGAACCATCTT",
    "TAACGGATCCCTTT",
];

fn set() -> Lent {
    Lent::new(&SEQUENCES)
}

fn table_template() -> second::Template {
    template(&[(3, 0, 0), (2, 0, 3), (4, 1, 3)])
}

#[test]
fn five_motifs_in_444_steps() {
    let (steps, rows) = whole(&set(), &table_template(), 2);
    let motifs = [
        "CCGTAAACC",
        "CCGTAGAAC",
        "TATGACCAT",
        "TATGGACCA",
        "TATGGCCAT",
    ];
    assert_eq!(steps, 444);
    assert_eq!(
        rows.iter().map(|row| row.0).collect::<Vec<_>>(),
        motifs.map(number)
    );
    assert!(rows.iter().all(|row| row.1 == 2));
    // Two sequences each, with one occurrence; the second motif has two in
    // the second sequence.
    assert_eq!(
        rows.iter().map(|row| row.2).collect::<Vec<_>>(),
        [2, 3, 2, 2, 2]
    );
}

#[test]
fn it_is_printed_in_the_template_s_shape() {
    let input = format!("NNN[0,3]NN[1,3]NNNN\n2\n{}\n", SEQUENCES.join("\n"));
    let printed = String::from_utf8(printout(input.as_bytes())).unwrap();
    let lines: Vec<&str> = printed.split_terminator('\n').collect();
    assert_eq!(
        lines,
        [
            "CCG[0,3]TA[1,3]AACC 2 2",
            "CCG[0,3]TA[1,3]GAAC 2 3",
            "TAT[0,3]GA[1,3]CCAT 2 2",
            "TAT[0,3]GG[1,3]ACCA 2 2",
            "TAT[0,3]GG[1,3]CCAT 2 2",
            "end 444 5",
        ]
    );
}

#[test]
fn three_occurrences_although_two_share_a_start() {
    let lent = set();
    let motif = place(9, number("CCGTAGAAC"));
    let template = table_template();
    assert_eq!(
        weighted_support(&lent.letters, &lent.lengths, &template, &motif),
        Ok(3)
    );
    assert_eq!(
        support(&lent.letters, &lent.lengths, &template, &motif),
        Ok(2)
    );
    let mut out = [0; 12];
    let answer = recover(
        &lent.letters,
        &lent.lengths,
        &template,
        motif.number,
        0,
        &mut out,
    );
    assert_eq!(answer, Ok(Recovered { rows: 3, length: 3 }));
    assert_eq!(out, [1, 1, 4, 8, 2, 1, 5, 10, 2, 1, 7, 10]);
}

#[test]
fn the_prefixes_of_the_example_by_trying_every_tuple() {
    let lent = set();
    for letters in [
        "C",
        "CCG",
        "CCGT",
        "CCGTA",
        "CCGTAG",
        "CCGTAGAAC",
        "TATGGCCAT",
        "TATG",
    ] {
        let found = naive_occurrences(&lent, &table_template(), letters);
        let prefix = place(letters.len() as u8, number(letters));
        let (marks, occurrences) = naive_supports(&found);
        let template = table_template();
        assert_eq!(
            support(&lent.letters, &lent.lengths, &template, &prefix),
            Ok(marks)
        );
        let weight = weighted_support(&lent.letters, &lent.lengths, &template, &prefix);
        assert_eq!(weight, Ok(occurrences));
    }
}
