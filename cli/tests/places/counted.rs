//! A page deep in a list is found by the table's own numbers, where these can
//! be trusted; and what a table's last line tells of another search is said.

use crate::case::lines;
use crate::common::{run, sums, word, Ran, Scratch};

const FILE: &str = ">a\nACGTACGTA\n>b\nACGGTA\n";
const MANY: u64 = 1_000_000_000_000_000;

/// The places of a table of these lines, over these sequences.
fn ask(table: &[String], file: &str, more: &[&str]) -> Ran {
    let scratch = Scratch::new();
    let file = scratch.file("file.fa", file);
    let list = scratch.file("list.tsv", table.concat());
    let words = ["places", "NN", word(&file), "--list", word(&list)];
    run(&[&words[..], more].concat())
}

/// The table of a search for all pairs of letters.
fn searched() -> Vec<String> {
    let scratch = Scratch::new();
    let file = scratch.file("file.fa", FILE);
    let table = run(&["search", "NN", "1", word(&file), "--quiet"]).printed();
    let table = String::from_utf8(table).expect("text");
    table.split_inclusive('\n').map(str::to_string).collect()
}

/// A table whose first motif, which occurs 3 times, is said to occur more
/// often.
fn said_to_occur(table: &[String], times: u64) -> Vec<String> {
    let mut table = table.to_vec();
    assert_eq!(table[1], "AC\t2\t3\n");
    table[1] = format!("AC\t2\t{times}\n");
    table
}

/// The same with the sum that a search would have written for it.
fn summed(mut table: Vec<String>) -> Vec<String> {
    let end = table.pop().expect("a last line");
    let (told, _) = end.rsplit_once(' ').expect("a sum");
    let sum = sums::words(table.concat().as_bytes());
    table.push(format!("{told} {sum:016x}\n"));
    table
}

#[test]
fn a_page_is_found_by_the_numbers_of_the_table() {
    let table = searched();
    let all = lines(&ask(&table, FILE, &[]).printed());
    let length = all.len() as u64 - 1;
    // The motif that is said to occur so often is passed over, not looked for.
    let often = summed(said_to_occur(&table, MANY));
    for deep in 0..=length - 3 {
        let from = format!("--from={}", MANY + deep);
        let page = lines(&ask(&often, FILE, &[&from, "--rows=2"]).printed());
        let begin = deep as usize + 4;
        assert_eq!(page[1..], all[begin..all.len().min(begin + 2)]);
    }
    let above = format!("--from={}", MANY + length - 2);
    let said = ask(&often, FILE, &[&above]).said(3);
    assert!(said.contains("refusal 15"), "{said}");
    // Where a page begins in it, that it does not occur so often shows.
    for from in ["--from=1", "--from=3", &format!("--from={}", MANY - 1)] {
        let said = ask(&often, FILE, &[from, "--rows=0"]).said(3);
        assert!(said.contains("AC occurs 3 times"), "{said}");
        assert!(said.contains("the table was changed"), "{said}");
    }
}

#[test]
fn numbers_that_cannot_be_trusted_are_not_used() {
    let table = searched();
    let all = lines(&ask(&table, FILE, &[]).printed());
    let often = summed(said_to_occur(&table, MANY));
    let last = often.len() - 1;
    let page = ["--from=4", "--rows=3"];
    let with_end = |end: &str| [&often[..last], &[end.to_string()]].concat();
    // Not whole; of an earlier version; and of other columns.
    let cut = ask(&often[..last], FILE, &page);
    assert_eq!((cut.status, &lines(&cut.out)[1..]), (Some(8), &all[5..8]));
    let rows = last - 1;
    let earlier = with_end(&format!("# end: steps 1, rows {rows}\n"));
    assert_eq!(lines(&ask(&earlier, FILE, &page).printed())[1..], all[5..8]);
    let mut other = often.clone();
    other[0] = "motif\tsupport\ttimes\n".to_string();
    let other = summed(other);
    assert_eq!(lines(&ask(&other, FILE, &page).printed())[1..], all[5..8]);
    let mut no_number = table.clone();
    no_number[2] = no_number[2].replace('\n', "x\n");
    let no_number = summed(no_number);
    assert_eq!(
        lines(&ask(&no_number, FILE, &page).printed())[1..],
        all[5..8]
    );
    // Of a search over other sequences, which is said besides.
    let ran = ask(&often, &FILE.replace("ACGG", "ACGC"), &page);
    assert_eq!(
        (ran.status, lines(&ran.out).len()),
        (Some(0), 4),
        "{}",
        ran.err
    );
    assert!(ran.err.contains("over other sequences"), "{}", ran.err);
    let other = with_end(&table[last].replace("template NN,", "template NNN,"));
    let ran = ask(&other, FILE, &page);
    assert_eq!((ran.status, &lines(&ran.out)[1..]), (Some(0), &all[5..8]));
    assert!(ran.err.contains("its template is NNN"), "{}", ran.err);
}

#[test]
fn a_table_that_was_changed_is_told_and_not_trusted() {
    let table = searched();
    assert_eq!(summed(table.clone()), table);
    let all = lines(&ask(&table, FILE, &[]).printed());
    let length = all.len() - 1;
    // An earlier motif occurs more often, less often or never; and rows that
    // changed places.
    let mut swapped = table.clone();
    swapped.swap(1, 2);
    for (changed, same) in [
        (said_to_occur(&table, 4), true),
        (said_to_occur(&table, 2), true),
        (said_to_occur(&table, 0), true),
        (swapped, false),
    ] {
        for from in 0..length {
            let page = ["--rows=2".to_string(), format!("--from={from}")];
            let ran = ask(&changed, FILE, &[&page[0], &page[1]]);
            assert_eq!(ran.status, Some(0), "{}", ran.err);
            assert!(ran.err.contains("its sum does not fit"), "{}", ran.err);
            assert_eq!(ran.err.lines().count(), 1, "{}", ran.err);
            if same || from >= 6 {
                let begin = from + 1;
                let expected = &all[begin..all.len().min(begin + 2)];
                assert_eq!(lines(&ran.out)[1..], *expected, "from {from}");
            }
        }
    }
}

/// The sums of the IDs of GFF3.
fn sum_of(printed: &[u8]) -> String {
    let text = String::from_utf8_lossy(printed).into_owned();
    let id = text.split_once("ID=o").expect("an occurrence").1;
    id.split_once('.').expect("a row").0.to_string()
}

#[test]
fn lists_of_other_records_or_motifs_have_other_ids() {
    let sum = |table: &[String], file: &str| sum_of(&ask(table, file, &["--gff"]).out);
    let table = searched();
    let mut sums = vec![
        sum(&table, FILE),
        sum(&table[..3], FILE),
        sum(&table[..2], FILE),
        sum(&table, &FILE.replace(">b", ">c")),
        sum(&table, &FILE.replace("ACGG", "ACGC")),
        sum(&table, &FILE.replace("TA\n>b\n", "T\n>b\nA")),
    ];
    // Lines that are no rows, and the file's lines and comments, do not count.
    assert_eq!(sum(&table[..table.len() - 1], FILE), sums[0]);
    assert_eq!(sum(&table, &FILE.replace(">b", ">b more")), sums[0]);
    assert_eq!(sum(&table, &FILE.replace("ACGG", "AC\nGG")), sums[0]);
    sums.sort();
    sums.dedup();
    assert_eq!(sums.len(), 6);
}
