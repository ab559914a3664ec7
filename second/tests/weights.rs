//! "The row's weighted support becomes the length of the recovery list, summed
//! over sequences": of every row that is listed, of occurrences that share
//! their starts, and of the most that there can be.

mod common;

use common::naive::{naive_occurrences, naive_supports};
use common::*;
use second::{recover, Recovered, Template};

/// How many first starts some occurrences have.
fn first_starts(occurrences: &[Vec<u32>]) -> u64 {
    let mut starts: Vec<&[u32]> = occurrences.iter().map(|row| &row[..2]).collect();
    starts.dedup();
    starts.len() as u64
}

#[test]
fn a_row_s_weight_is_the_length_of_its_list() {
    let mut random = Random::new(81);
    let (mut rows_seen, mut starts_shared) = (0, 0);
    for _ in 0..400 {
        let lent = random.sequences(4, 12, 2);
        let template = random.template(4);
        let quorum = 1 + random.below(lent.lengths.len() as u64);
        for (motif, support, weight) in whole(&lent, &template, quorum).1 {
            let letters = letters_of(template.letters_in_all() as usize, motif);
            let found = naive_occurrences(&lent, &template, &letters);
            assert_eq!((support, weight), naive_supports(&found));

            let ask = |first, out: &mut [u32]| {
                recover(&lent.letters, &lent.lengths, &template, motif, first, out)
            };
            let (rows, length) = (found.len(), weight);
            let mut out = vec![0; found.concat().len()];
            assert_eq!(ask(0, &mut out), Ok(Recovered { rows, length }));
            assert_eq!(out, found.concat());
            let rows = 0;
            assert_eq!(ask(weight, &mut out), Ok(Recovered { rows, length }));
            assert_eq!(ask(weight + 1, &mut out), Err(refusal(15, 0)));

            rows_seen += 1;
            starts_shared += u32::from(weight > first_starts(&found));
        }
    }
    assert!(rows_seen > 1_000 && starts_shared > 300);
}

#[test]
fn occurrences_that_share_their_starts() {
    // ACG twice in three of the sequences: from one first start, to one last
    // start, and both.
    let lent = Lent::new(&["", "ACGG", "", "TGCA", "AACG", "", "ACCG", "GCA"]);
    let triple = template(&[(1, 0, 0), (1, 0, 3), (1, 0, 3)]);
    let (_, rows) = whole(&lent, &triple, 3);
    assert_eq!(rows, [(number("ACG"), 3, 6)]);
    let (_, rows) = whole(&lent, &triple, 2);
    assert_eq!(rows, [(number("ACG"), 3, 6), (number("GCA"), 2, 2)]);
    let expected = [
        [2, 1, 2, 3],
        [2, 1, 2, 4],
        [5, 1, 3, 4],
        [5, 2, 3, 4],
        [7, 1, 2, 4],
        [7, 1, 3, 4],
    ];
    let found = naive_occurrences(&lent, &triple, "ACG");
    assert_eq!(found, expected);
    assert_eq!(first_starts(&found), 4);
}

/// Six components of one letter, with the widest gaps between them.
fn widest() -> Template {
    let mut components = [(1, 0, 255); 6];
    components[0].2 = 0;
    template(&components)
}

/// The occurrences of AAAAAA in so many letters A, 1,280 or more. Five
/// distances from start to start leave as many first starts as there are
/// letters less their sum; each is any from 1 to 256, so the sum is 642.5 on
/// the average of all 2^40.
fn of_a_run(letters: u64) -> u64 {
    (2 * letters - 1_285) << 39
}

/// The list of a search at the widest gaps over these runs of letters, and the
/// length of AAAAAA's own list.
fn over_runs(runs: &[(&str, usize)], quorum: u64) -> (Vec<Row>, u64) {
    let sequences: Vec<String> = runs.iter().map(|(run, n)| run.repeat(*n)).collect();
    let lent = Lent::new(&sequences.iter().map(String::as_str).collect::<Vec<_>>());
    let list = recover(&lent.letters, &lent.lengths, &widest(), 0, 0, &mut []);
    let (_, rows) = whole(&lent, &widest(), quorum);
    (rows, list.expect("a motif").length)
}

#[test]
fn the_most_occurrences_that_there_can_be() {
    let weight = of_a_run(65_536);
    assert_eq!(weight, 71_351_157_817_081_856);
    let found = over_runs(&[("A", 65_536)], 1);
    assert_eq!(found, (vec![(0, 1, weight)], weight));
}

#[test]
fn very_many_occurrences_in_two_sequences() {
    let weight = of_a_run(30_000) + of_a_run(35_000);
    let runs = [("A", 30_000), ("", 0), ("C", 536), ("A", 35_000)];
    assert_eq!(over_runs(&runs, 2), (vec![(0, 2, weight)], weight));
}
