//! The plain table has the rows that the second program recovers, whole and
//! in pages.

use crate::case::{lines, Case, ODD, USUAL};
use crate::common::{run, word, Random, Scratch};
use second::{Component, Profile, Template};

/// A name as a plain table has it: control characters and percent signs as
/// GFF3 escapes them.
fn escaped(name: &[u8]) -> Vec<u8> {
    let mut text = Vec::new();
    for byte in name {
        match byte {
            0..32 | 127 | b'%' => text.extend_from_slice(format!("%{byte:02X}").as_bytes()),
            _ => text.push(*byte),
        }
    }
    text
}

/// The lines of a plain table.
pub fn table(case: &Case, motif: &str, rows: &[Vec<u32>]) -> Vec<Vec<u8>> {
    let mut header = b"motif\tname\tsequence".to_vec();
    for i in 1..=case.template.components.len() {
        header.extend_from_slice(format!("\tstart{i}").as_bytes());
    }
    let mut lines = vec![header];
    for row in rows {
        let name = escaped(&case.names[row[0] as usize - 1]);
        let mut line = [motif.as_bytes(), b"\t", &name].concat();
        for number in row {
            line.extend_from_slice(format!("\t{number}").as_bytes());
        }
        lines.push(line);
    }
    lines
}

/// Compares a motif's rows, whole and in pages.
fn compare(case: &Case, (number, motif): (u64, String), random: &mut Random) -> u64 {
    let scratch = Scratch::new();
    let file = scratch.file("file.fa", case.file(random));
    let rows = case.rows(number);
    let length = rows.len() as u64;
    let ask = |motif: &str, more: &[String]| {
        let mut words = case.words();
        words.insert(1, motif.to_string());
        words.insert(2, word(&file).to_string());
        words.insert(0, "places".to_string());
        words.extend_from_slice(more);
        lines(&run(&words).printed())
    };
    let page = |from: u64, rows: u64| [format!("--from={from}"), format!("--rows={rows}")];

    assert_eq!(ask(&motif, &[]), table(case, &motif, &rows));
    for _ in 0..3 {
        let from = random.below(length + 1);
        let count = random.below(length + 3);
        let end = length.min(from + count);
        assert_eq!(
            ask(&motif, &page(from, count)),
            table(case, &motif, &rows[from as usize..end as usize]),
            "{from} {count}"
        );
        let without: String = motif.chars().filter(char::is_ascii_alphabetic).collect();
        assert_eq!(
            ask(&without, &page(from, 0)),
            table(case, &motif, &[]),
            "{from}"
        );
    }
    let mut laid = ask(&motif, &page(0, 0));
    let most = length / 3 + 1;
    while (laid.len() as u64 - 1) < length {
        let from = laid.len() as u64 - 1;
        let count = 1 + random.below(most);
        laid.extend(ask(&motif, &page(from, count)).into_iter().skip(1));
    }
    assert_eq!(laid, table(case, &motif, &rows));
    length
}

#[test]
fn rows_are_those_of_the_second_program() {
    let mut random = Random::new(1);
    let names = [USUAL, ODD].concat();
    let mut occurred = 0;
    for _ in 0..80 {
        let case = Case::random(&mut random, &names);
        let motif = case.motif(&mut random);
        occurred += u64::from(compare(&case, motif, &mut random) > 0);
    }
    assert!(occurred > 30, "only {occurred} motifs occur");
}

/// A list that is longer than what is asked of the library at once.
#[test]
fn a_long_list_is_whole() {
    let component = |high| Component {
        length: 1,
        low: 0,
        high,
        allowance: 0,
    };
    let case = Case {
        template: Template {
            profile: Profile::Exact,
            components: vec![component(0), component(255)],
        },
        names: vec![b"a".to_vec(), b"b".to_vec()],
        sequences: vec![vec![b'A'; 200], vec![b'A'; 150]],
    };
    let length = compare(&case, (0, "A[0,255]A".to_string()), &mut Random::new(2));
    assert!(length > 3 * 8_192, "{length}");
}
