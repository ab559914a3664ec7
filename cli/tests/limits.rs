//! Every refusal that a search can meet, and beside it what is just not
//! refused: the program and the second program say the same.

#[path = "common/asked.rs"]
mod asked;
mod common;

use asked::{Asked, Quorum};
use common::{fasta, run, word, Random, Scratch};

/// A file of two short sequences.
fn two() -> Vec<u8> {
    fasta(&[b"ACGTACGTACGT".to_vec(), b"TTACGTACGGT".to_vec()])
}

/// A file of two sequences with one long word in common.
fn alike(letters: u64) -> Vec<u8> {
    let mut random = Random::new(5);
    let word = random.letters(letters);
    let other = [&b"TG"[..], &word].concat();
    fasta(&[word, other])
}

/// An exact search that all sequences of a file have to hold.
fn exact(shape: &[(usize, u16, u16)], file: Vec<u8>) -> Asked {
    Asked {
        shape: shape.to_vec(),
        mixed: None,
        quorum: Quorum::Share {
            part: 100,
            places: 0,
        },
        file,
    }
}

/// The same with letters that stand for several bases.
fn mixed(shape: &[(usize, u16, u16)], allowances: &[u16], file: Vec<u8>) -> Asked {
    Asked {
        mixed: Some(allowances.to_vec()),
        ..exact(shape, file)
    }
}

/// Runs a search that both programs accept: the table has rows, and is the
/// expected one.
fn accepted(asked: &Asked) {
    let scratch = Scratch::new();
    let file = scratch.file("a.fa", &asked.file);
    let table = asked.expected().expect("a search");
    assert!(table.rows > 0, "no row: nothing is compared");
    let printed = run(&asked.words(word(&file))).printed();
    assert_eq!(String::from_utf8_lossy(&printed), table.text());
}

/// Runs a search that both programs refuse by this number, and answers the
/// words.
fn refused(asked: &Asked, number: u8, place: u64) -> String {
    let scratch = Scratch::new();
    let file = scratch.file("a.fa", &asked.file);
    let (out, job) = (scratch.path("out"), scratch.path("job"));
    let refusal = asked.expected().expect_err("no search");
    assert_eq!((refusal.number, refusal.place), (number, place));
    let mut words = asked.words(word(&file));
    words.extend(["--out", word(&out), "--job", word(&job)].map(String::from));
    let said = run(&words).said(3);
    let told = format!("(refusal {number})");
    assert!(said.lines().next().unwrap_or("").ends_with(&told), "{said}");
    assert!(!out.exists() && !job.exists(), "made although refused");
    said
}

/// So many records of one letter.
fn records(count: usize) -> Vec<u8> {
    fasta(&vec![b"A".to_vec(); count])
}

#[test]
fn sequences_are_1_to_1_024() {
    accepted(&exact(&[(1, 0, 0)], records(1)));
    accepted(&exact(&[(1, 0, 0)], records(1_024)));
    for none in [&b""[..], b"\n", b"\r\n\n"] {
        let said = refused(&exact(&[(1, 0, 0)], none.to_vec()), 1, 0);
        assert!(said.contains("a.fa: it holds no sequence (refusal 1)"));
    }
    let said = refused(&exact(&[(1, 0, 0)], records(1_025)), 1, 0);
    assert!(said.contains("a.fa: 1,025 sequences, and a search takes 1,024: 1 too many"));
}

#[test]
fn letters_are_at_most_65_536() {
    let mut random = Random::new(6);
    let whole = random.letters(65_536);
    accepted(&exact(&[(2, 0, 0)], fasta(std::slice::from_ref(&whole))));
    let halves = [whole[..30_000].to_vec(), whole[29_999..].to_vec()];
    let said = refused(&exact(&[(2, 0, 0)], fasta(&halves)), 2, 0);
    assert!(said.contains("a.fa: 65,537 letters, and a search takes 65,536: 1 too many"));
}

#[test]
fn what_is_no_letter_is_refused_where_it_stands() {
    refused(&exact(&[(1, 0, 0)], b">a\nACGN\n".to_vec()), 4, 6);
    refused(&exact(&[(1, 0, 0)], b">a\nA\n>b\nC>\n".to_vec()), 4, 9);
    refused(&exact(&[(1, 0, 0)], b"ACGT\n".to_vec()), 19, 0);
    refused(&exact(&[(1, 0, 0)], b"\n\nx>a\nA\n".to_vec()), 19, 0);
}

#[test]
fn components_are_at_most_6() {
    let six = [
        (1, 0, 0),
        (1, 0, 1),
        (1, 0, 1),
        (1, 0, 1),
        (1, 0, 1),
        (1, 0, 1),
    ];
    accepted(&exact(&six, two()));
    accepted(&mixed(&six, &[0, 1, 0, 0, 0, 0], two()));
    let seven = [&six[..], &[(1, 0, 1)]].concat();
    refused(&exact(&seven, two()), 5, 0);
    refused(&mixed(&seven, &[0], two()), 5, 0);
    refused(&exact(&vec![(1, 0, 0); 20_000], two()), 5, 0);
}

#[test]
fn a_component_has_at_most_12_letters() {
    accepted(&exact(&[(12, 0, 0)], alike(20)));
    for (shape, place) in [
        (vec![(13, 0, 0)], 1),
        // One that is short where a number of 16 bits overflows.
        (vec![(2, 0, 0), (1, 0, 0), (65_537, 0, 0)], 3),
        (vec![(2, 0, 0), (256, 0, 0), (257, 0, 0)], 2),
    ] {
        let said = refused(&exact(&shape, two()), 6, place);
        assert!(
            said.contains(&format!(": component {place} has ")),
            "{said}"
        );
    }
}

#[test]
fn a_motif_has_at_most_32_letters_and_16_in_a_mixed_search() {
    accepted(&exact(&[(12, 0, 0), (12, 0, 0), (8, 0, 3)], alike(40)));
    accepted(&mixed(&[(12, 0, 0), (4, 0, 3)], &[0, 1], alike(20)));
    let said = refused(&exact(&[(12, 0, 0), (12, 0, 0), (9, 0, 3)], two()), 7, 0);
    assert!(
        said.contains("33 letters in all components, and a search takes at most 32: 1 too many")
    );
    let said = refused(&mixed(&[(12, 0, 0), (5, 0, 3)], &[0, 1], two()), 7, 0);
    assert!(said.contains("17 letters in all components, and a mixed search takes at most 16"));
}

#[test]
fn a_gap_is_at_most_255_and_goes_up() {
    accepted(&exact(&[(2, 0, 0), (2, 255, 255)], alike(300)));
    accepted(&exact(&[(1, 0, 0), (1, 0, 255)], alike(300)));
    for (shape, place) in [
        (vec![(1, 0, 0), (1, 0, 256)], 2),
        (vec![(1, 0, 0), (1, 256, 256)], 2),
        (vec![(1, 0, 0), (1, 0, 0), (1, 0, u16::MAX)], 3),
        (vec![(1, 0, 0), (1, 1, 0), (1, 0, 256)], 2),
        (vec![(1, 0, 0), (1, 0, 0), (1, 255, 254)], 3),
    ] {
        let said = refused(&exact(&shape, two()), 8, place);
        assert!(
            said.contains(&format!(" before component {place} goes ")),
            "{said}"
        );
    }
}

#[test]
fn a_quorum_is_1_to_the_number_of_sequences() {
    let with = |quorum| Asked {
        quorum,
        ..exact(&[(2, 0, 0)], two())
    };
    accepted(&with(Quorum::Number(1)));
    accepted(&with(Quorum::Number(2)));
    accepted(&with(Quorum::Share { part: 1, places: 9 }));
    refused(&with(Quorum::Number(0)), 9, 0);
    refused(&with(Quorum::Number(3)), 9, 0);
    refused(&with(Quorum::Number(u64::MAX)), 9, 0);
    refused(&with(Quorum::Share { part: 0, places: 0 }), 9, 0);
    let (part, places) = (100_000_000_001, 9);
    refused(&with(Quorum::Share { part, places }), 9, 0);
}

#[test]
fn an_allowance_is_at_most_its_components_length() {
    accepted(&mixed(&[(2, 0, 0), (1, 0, 1)], &[2, 1], two()));
    for (allowances, first) in [(&[3, 0][..], 1), (&[0, 2], 2), (&[2], 2), (&[u16::MAX], 1)] {
        let said = refused(&mixed(&[(2, 0, 0), (1, 0, 1)], allowances, two()), 24, 0);
        assert!(
            said.contains(&format!(": component {first} has ")),
            "{said}"
        );
    }
}

#[test]
fn the_first_of_several_refusals_is_told() {
    let sequences = records(1_025);
    let all = [(13, 0, 0), (12, 9, 0), (12, 0, 0)];
    refused(&exact(&all, sequences), 1, 0);
    refused(&exact(&all, two()), 6, 1);
    refused(&exact(&[(12, 0, 0), (12, 9, 0), (12, 0, 0)], two()), 7, 0);
    refused(&mixed(&[(2, 0, 0), (2, 9, 0)], &[3], two()), 8, 2);
    let quorum = Quorum::Number(0);
    let asked = mixed(&[(2, 0, 0)], &[3], two());
    refused(&Asked { quorum, ..asked }, 24, 0);
}
