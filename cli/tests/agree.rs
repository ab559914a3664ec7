//! The program and the second program agree: on random files, templates and
//! quorums every byte that is printed is the one that is expected, and what
//! the one refuses the other does.

#[path = "common/asked.rs"]
mod asked;
mod common;

use asked::Asked;
use common::{run, run_on, word, Scratch};
use second::requests::files;
use second::requests::random::Random;
use std::fs;

/// How many cases of each kind.
const CASES: u64 = 500;

/// A search over a file with nothing wrong.
fn sound(random: &mut Random, mixed: bool) -> Asked {
    let most = random.pick(&[2, 5, 9]);
    let file = files::sound(random, most, 14);
    over(random, file, mixed)
}

/// A search over a file, with a template that no rule refuses.
fn over(random: &mut Random, file: Vec<u8>, mixed: bool) -> Asked {
    let shape = asked::shape(random, if mixed { 4 } else { 6 });
    let mixed = mixed.then(|| asked::allowances(random, &shape));
    let count = file.iter().filter(|b| **b == b'>').count() as u64;
    Asked {
        shape,
        mixed,
        quorum: asked::quorum(random, count),
        file,
    }
}

/// What came up in some cases, so that it shows when nothing did.
#[derive(Debug, Default)]
struct Seen {
    tables: u64,
    rows: u64,
    /// Searches of so many steps that they take several legs.
    long: u64,
    refused: [u64; 25],
    /// Files with a byte 13 within a name.
    returns: u64,
}

/// Whether a line that begins with > has a byte 13 within it: before something
/// that is neither another one nor the line's end.
fn has_return(file: &[u8]) -> bool {
    let lines = file
        .split(|b| *b == 10)
        .filter(|line| line.first() == Some(&b'>'));
    let mut pairs = lines.flat_map(|line| line.windows(2));
    pairs.any(|pair| pair[0] == 13 && pair[1] != 13)
}

/// Runs the program in one of four ways, and compares all of what it leaves
/// behind.
fn agree(asked: &Asked, way: u64, seen: &mut Seen) {
    let scratch = Scratch::new();
    let file = scratch.file("a.fa", &asked.file);
    let (out, job) = (scratch.path("out.tsv"), scratch.path("job"));
    let expected = asked.expected();
    let mut words = asked.words(if way == 1 { "-" } else { word(&file) });
    let input: &[u8] = if way == 1 { &asked.file } else { b"" };
    match way {
        2 => words.extend(["--out".to_string(), word(&out).to_string()]),
        3 => words.extend(["--job".to_string(), word(&job).to_string()]),
        _ => {}
    }
    let ran = run_on(&words, input);
    let unread = matches!(&expected, Err(refusal) if [4, 19].contains(&refusal.number));
    if !unread && has_return(&asked.file) {
        seen.returns += 1;
        let said = ran.said(3);
        assert!(said.contains(": byte 13 within a name"), "{said}{asked:?}");
        assert!(!out.exists() && !job.exists(), "made although refused");
        return;
    }
    match expected {
        Ok(table) => {
            seen.tables += 1;
            seen.rows += table.rows;
            seen.long += u64::from(table.steps > 10_000);
            let expected = table.text();
            let printed = String::from_utf8(ran.printed()).expect("a table is text");
            let written = match way {
                2 => fs::read_to_string(&out).expect("the table was written"),
                3 => fs::read_to_string(job.join("rows.tsv")).expect("the job has a table"),
                _ => printed.clone(),
            };
            assert_eq!(printed, if way == 2 { "" } else { &expected }, "{asked:?}");
            assert_eq!(written, expected, "{asked:?}");
            if way == 3 {
                // A job that has ended prints its table again.
                let again = run(&["resume", word(&job)]).printed();
                assert_eq!(String::from_utf8_lossy(&again), expected);
            }
        }
        Err(refusal) => {
            seen.refused[usize::from(refusal.number)] += 1;
            let said = ran.said(3);
            let number = format!("(refusal {})", refusal.number);
            assert!(said.contains(&number), "{refusal:?}: {said}{asked:?}");
            if refusal.number == 4 {
                let place = place_in(&asked.file, refusal.place as usize);
                assert!(said.contains(&place), "{place}: {said}");
            }
            assert!(!out.exists() && !job.exists(), "made although refused");
        }
    }
}

/// The line and the byte in it of an offset, as a message tells them.
fn place_in(file: &[u8], offset: usize) -> String {
    let (mut line, mut column) = (1, 1);
    for byte in &file[..offset] {
        if *byte == 10 {
            (line, column) = (line + 1, 1);
        } else {
            column += 1;
        }
    }
    format!(":{line}:{column}: ")
}

#[test]
fn exact_searches_agree() {
    let mut random = Random::new(1);
    let mut seen = Seen::default();
    for case in 0..CASES {
        agree(&sound(&mut random, false), case % 4, &mut seen);
    }
    assert!(seen.tables > 200 && seen.rows > 2_000, "{seen:?}");
    assert!(seen.refused[1] > 0 && seen.refused[9] > 0, "{seen:?}");
}

#[test]
fn mixed_searches_agree() {
    let mut random = Random::new(2);
    let mut seen = Seen::default();
    for case in 0..CASES {
        agree(&sound(&mut random, true), case % 4, &mut seen);
    }
    assert!(seen.tables > 200 && seen.rows > 20_000, "{seen:?}");
    assert!(seen.long > 10, "{seen:?}");
}

#[test]
fn files_with_anything_in_them_agree() {
    let mut random = Random::new(3);
    let mut seen = Seen::default();
    for case in 0..CASES {
        let file = files::any(&mut random);
        let asked = over(&mut random, file, false);
        agree(&asked, case % 4, &mut seen);
    }
    let refused = &seen.refused;
    assert!(
        seen.tables > 50 && refused[4] > 20 && refused[19] > 20 && seen.returns > 5,
        "{seen:?}"
    );
}
