//! The page that a curator signs, docs/ALPHABET.md: the lines that it quotes
//! stand word for word in the files that it names, and its tables have the
//! letters of the second program, with their bytes and values, and the mixed
//! letters, with their places and bases.

mod common;

use common::quotes::{contents, quotes, wrong};
use common::{mixed, refusal, template, whole, Lent};
use second::Profile;

/// The first three cells of each row of a page that is about one character or
/// one byte: letter, byte, value.
fn rows(page: &str) -> Vec<[String; 3]> {
    let mut rows = Vec::new();
    for line in page.lines().filter_map(|line| line.strip_prefix('|')) {
        let mut cells = line.split('|').map(|cell| cell.trim().to_string());
        let [letter, byte, value] = [(); 3].map(|()| cells.next().unwrap_or_default());
        if letter.chars().count() == 1 || byte.parse::<u64>().is_ok() {
            rows.push([letter, byte, value]);
        }
    }
    rows
}

/// The second program's letters, as it answers: each byte that it takes for a
/// sequence, with the number of the one motif of one letter in that.
fn alphabet() -> Vec<[String; 3]> {
    let one = template(&[(1, 0, 0)]);
    let mut letters = Vec::new();
    for byte in 0..=u8::MAX {
        let lent = Lent {
            letters: vec![byte],
            lengths: vec![1],
        };
        if let Err(told) = lent.begin(&one, 1) {
            assert_eq!(told, refusal(4, 0), "byte {byte}");
            continue;
        }
        let [(value, 1, 1)] = whole(&lent, &one, 1).1[..] else {
            panic!("byte {byte} is not one motif");
        };
        letters.push([
            char::from(byte).to_string(),
            byte.to_string(),
            value.to_string(),
        ]);
    }
    letters
}

/// The mixed letters, as the second program answers: each with its place in
/// the order, and the bases in which it is a frequent motif of one letter.
fn mixed_letters() -> Vec<[String; 3]> {
    let one = mixed(&[(1, 1, 0, 0)]);
    let names = Profile::Mixed.letters();
    let mut bases = vec![Vec::new(); names.len()];
    for base in ["A", "C", "G", "T"] {
        for (motif, _, _) in whole(&Lent::new(&[base]), &one, 1).1 {
            bases[motif as usize].push(base);
        }
    }
    (0..)
        .zip(names.iter().zip(bases))
        .map(|(place, (name, bases))| {
            [
                char::from(*name).to_string(),
                place.to_string(),
                bases.join(" "),
            ]
        })
        .collect()
}

#[test]
fn what_the_page_quotes_stands_there() {
    let page = contents("docs/ALPHABET.md").expect("the page");
    let wrong = wrong(&page, contents);
    assert!(wrong.is_empty(), "docs/ALPHABET.md: {}", wrong.join("; "));
}

#[test]
fn the_page_s_tables_are_the_alphabets() {
    let page = contents("docs/ALPHABET.md").expect("the page");
    assert_eq!(rows(&page), [alphabet(), mixed_letters()].concat());
}

/// A row of the second table has a letter's bases as the definition has them,
/// and the number of their set, in that order, in the lines that the page
/// quotes.
#[test]
fn the_page_s_second_table_has_the_sets_that_it_quotes() {
    let page = contents("docs/ALPHABET.md").expect("the page");
    let quotes = quotes(&page).expect("quotes");
    let quoted: String = quotes
        .iter()
        .flat_map(|quote| quote.lines.clone())
        .collect();
    let (mut sets, mut numbers) = (Vec::new(), Vec::new());
    for [letter, place, bases] in mixed_letters() {
        let mut set = String::new();
        let mut number = 0;
        for base in bases.split(' ') {
            set += &format!("{base} ∷ ");
            number += 1 << "ACGT".find(base).expect("a base");
        }
        let set = format!("({set}[])");
        let row = format!("| {letter} | {place} | {bases} | `{set}` | `{number}` |");
        assert!(page.lines().any(|line| line == row), "no row {row}");
        sets.push(set);
        numbers.push(number.to_string());
    }
    let packed: String = quoted.split_whitespace().collect();
    let sets: String = sets.join("∷").split_whitespace().collect();
    assert!(packed.contains(&format!("bases={sets}∷[]")), "{sets}");
    assert!(
        quoted.contains(&format!("[{}]", numbers.join(", "))),
        "{numbers:?}"
    );
}

/// What a row of the table has of a letter's comparison, in the definition and
/// in the code, stands in the lines that the page quotes.
#[test]
fn the_page_s_table_has_the_comparisons_that_it_quotes() {
    let page = contents("docs/ALPHABET.md").expect("the page");
    let quotes = quotes(&page).expect("quotes");
    let quoted: Vec<&str> = quotes
        .iter()
        .flat_map(|quote| quote.lines.clone())
        .collect();
    for [letter, byte, value] in alphabet() {
        let definition = format!("if (eqb b {byte}) {letter}");
        let code = format!("when(b == b'{letter}', {value}, v)");
        let row = format!("| {letter} | {byte} | {value} | `{definition}` | `{code}` |");
        assert!(page.lines().any(|line| line == row), "no row {row}");
        for cell in [definition, code] {
            let there = quoted.iter().any(|line| line.contains(&cell));
            assert!(there, "`{cell}` is not quoted");
        }
    }
}

#[test]
fn a_wrong_row_is_told() {
    let table = "| letter | byte | value | code |\n|---|---|---|---|\n\
                 | A | 65 | 0 | `a` |\n|C|67|1|\n| G | 71 | 2 | `g | h` |\n| T | 84 | 3 |\n\
                 | any other byte | | the mark | `m` |\n";
    assert_eq!(rows(table), alphabet());
    for (from, to) in [
        ("| A | 65 | 0 ", "| C | 65 | 0 "),
        ("| A | 65 | 0 ", "| a | 97 | 0 "),
        ("| A | 65 | 0 ", "| A | 65 | 1 "),
        ("| A | 65 | 0 ", "| A | 0 | 65 "),
        ("| A | 65 | 0 ", "| A | | 0 "),
        ("| A | 65 | 0 | `a` |\n", ""),
        ("|C|67|1|\n", "|C|67|1|\n|C|67|1|\n"),
        ("|C|67|1|\n", "|C|67|\n"),
        ("| any other byte | ", "| U | 85 | 3 |\n| other | "),
        ("| any other byte | ", "| small t | 116 | 3 |\n| other | "),
    ] {
        assert!(table.contains(from));
        assert_ne!(rows(&table.replace(from, to)), alphabet(), "{to}");
    }
}
