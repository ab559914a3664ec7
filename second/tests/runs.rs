//! The answers of the proved calls on each side of every limit, on every byte
//! and on the source document's example, as their program in the gate printed
//! them, against this program's. Each answer of that printout names its
//! input; the input is made anew from the name.

use second::{begin, leg, recover, Answer, Component, Profile, Refusal, Template};

const PRINTED: &str = include_str!("../../crates/runs/stdout");

fn component(length: u8, low: u16, high: u16) -> Component {
    Component {
        length,
        low,
        high,
        allowance: 0,
    }
}

/// `count` components: the given ones, then ones of a letter with no gap.
fn template(count: usize, given: &[Component]) -> Template {
    let mut components = given.to_vec();
    components.resize(count, component(1, 0, 0));
    Template {
        profile: Profile::Exact,
        components,
    }
}

/// N[0,1]N
fn pair() -> Template {
    template(2, &[component(1, 0, 0), component(1, 0, 1)])
}

/// The numbers of a table, a space before each.
fn table<T: ToString>(numbers: &[T]) -> String {
    numbers
        .iter()
        .map(|n| format!(" {}", n.to_string()))
        .collect()
}

fn refused(refusal: Refusal) -> String {
    format!("refused {} {}", refusal.number, refusal.place)
}

/// A new search as it is told: refused, or a leg of at most 1,000 steps with
/// eight rows, and then its three tables.
fn told(letters: &[u8], lengths: &[u32], template: &Template, quorum: u64) -> String {
    let search = match begin(letters, lengths, template, quorum) {
        Ok(search) => search,
        Err(refusal) => return self::refused(refusal),
    };
    let (mut motifs, mut supports, mut weights) = ([0; 8], [0; 8], [0; 8]);
    let told = leg(
        letters,
        lengths,
        &search,
        1000,
        &mut motifs,
        &mut supports,
        &mut weights,
    );
    let why = match told.answer {
        Answer::Ended => "ended",
        Answer::Spent => "spent",
        Answer::Full => "full",
        Answer::Refused(refusal) => return self::refused(refusal),
    };
    format!(
        "{why} {} {}\n{}\n{}\n{}",
        told.steps,
        told.rows,
        table(&motifs),
        table(&supports),
        table(&weights)
    )
}

/// Table 1 of the source document: its sequences and its template.
fn example() -> (Vec<u8>, [u32; 4], Template) {
    let letters = [
        "CCGTACCGAACCTCAAA",
        "CCGTTATAGGAACCATT",
        "TATGGAACCATCTT",
        "TAACGGATCCCTTT",
    ]
    .concat()
    .into_bytes();
    let shape = [component(3, 0, 0), component(2, 0, 3), component(4, 1, 3)];
    (letters, [17, 17, 14, 14], template(3, &shape))
}

/// A recovery as it is told, and then its table.
fn recovered(motif: u64) -> String {
    let (letters, lengths, template) = example();
    let mut out = [0; 16];
    match recover(&letters, &lengths, &template, motif, 0, &mut out) {
        Ok(counts) => format!("rows {} {}\n{}", counts.rows, counts.length, table(&out)),
        Err(refusal) => refused(refusal),
    }
}

/// The numbers that a name holds.
fn numbers(name: &str) -> Vec<u64> {
    name.split(|c: char| !c.is_ascii_digit())
        .filter(|piece| !piece.is_empty())
        .map(|piece| piece.parse().unwrap())
        .collect()
}

fn expected(name: &str) -> String {
    const LETTERS: &[u8] = b"ACGTACAGGTAT";
    const LENGTHS: [u32; 3] = [5, 5, 2];
    let n = numbers(name);
    if name.ends_with("sequences") {
        return told(b"", &vec![0; n[0] as usize], &pair(), 1);
    }
    if name.starts_with("lengths") {
        let lengths = [n[0] as u32, n[1] as u32, n[2] as u32];
        return told(LETTERS, &lengths, &pair(), 2);
    }
    if name.ends_with("letters") {
        return told(&vec![b'A'; n[0] as usize], &[n[0] as u32], &pair(), 1);
    }
    if name.ends_with("components") {
        return told(LETTERS, &LENGTHS, &template(n[0] as usize, &[]), 2);
    }
    if name.starts_with("component lengths") {
        let given: Vec<Component> = n.iter().map(|l| component(*l as u8, 0, 0)).collect();
        return told(LETTERS, &LENGTHS, &template(3, &given), 2);
    }
    if name.starts_with("gap range") {
        let range = component(1, n[0] as u16, n[1] as u16);
        let given = if name.ends_with("before the first") {
            [range, component(1, 0, 1)]
        } else {
            [component(1, 0, 0), range]
        };
        return told(LETTERS, &LENGTHS, &template(2, &given), 2);
    }
    if name.starts_with("quorum") {
        return told(LETTERS, &LENGTHS, &pair(), n[0]);
    }
    if name == "example" {
        let (letters, lengths, template) = example();
        return told(&letters, &lengths, &template, 2);
    }
    if name.starts_with("example, motif") {
        return recovered(n[0]);
    }
    assert!(name.starts_with("A and byte"), "a new kind of line: {name}");
    told(&[b'A', n[0] as u8], &[2], &pair(), 1)
}

/// The answers, each with the lines of tables under it.
fn answers() -> Vec<(String, String)> {
    let mut answers: Vec<(String, String)> = Vec::new();
    for line in PRINTED.lines() {
        match line.split_once(": ") {
            Some((name, answer)) => answers.push((name.to_string(), answer.to_string())),
            None => {
                let last = answers.last_mut().expect("a table under an answer");
                last.1 = format!("{}\n{line}", last.1);
            }
        }
    }
    answers
}

#[test]
fn the_proved_calls_answer_the_same() {
    let answers = answers();
    for (name, answer) in &answers {
        assert_eq!(*answer, expected(name), "{name}");
    }
    assert_eq!(
        answers.len(),
        27 + 256 + 2,
        "each limit, each byte, the example"
    );
}
