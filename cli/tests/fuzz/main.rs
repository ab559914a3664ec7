//! Command lines made of random pieces, over random bytes: the program never
//! fails in a way that it does not know, and says that all is well exactly
//! where the table is whole.

#[path = "../common/mod.rs"]
mod common;
mod lines;
#[path = "../common/within.rs"]
mod within;

use common::{Ran, Scratch};
use lines::line;
use second::requests::files;
use second::requests::random::Random;
use std::ffi::OsString;
use std::fs;
use std::path::PathBuf;
use within::{ran, within};

/// The command lines of each test.
const LINES: u64 = 2_000;

/// Whether bytes are a whole table: their last line says so.
fn whole(bytes: &[u8]) -> bool {
    let lines = bytes.strip_suffix(b"\n").unwrap_or(b"");
    let last = lines.rsplit(|b| *b == b'\n').next().unwrap_or(b"");
    last.starts_with(b"# end: ")
}

/// What holds of every run, which wrote a whole table to a file or did not.
fn check(words: &[OsString], ran: &Ran, written: bool) {
    let told = || format!("{:.2000}\n{:.2000}", format!("{words:?}"), ran.err);
    let status = ran.status.unwrap_or(-1);
    assert!(
        [0, 2, 3, 4, 5, 6, 7].contains(&status),
        "{status}: {}",
        told()
    );
    assert!(!ran.err.contains("panicked"), "{}", told());
    assert!(
        !ran.err.contains("a fault of the program itself"),
        "{}",
        told()
    );
    assert_eq!(ran.complaints().is_empty(), status == 0, "{}", told());
    assert!(ran.err.len() < 300_000, "{} bytes are said", ran.err.len());
    let help = ran.out.starts_with(b"usage: ");
    if words[0] == "search" && !help {
        let ended = whole(&ran.out) || written;
        assert_eq!(ended, status == 0, "{status}: {}", told());
    }
}

/// The paths in the folder, but for the job that is kept.
fn paths(scratch: &Scratch) -> Vec<PathBuf> {
    let entries = fs::read_dir(scratch.path("")).expect("the folder");
    let paths = entries.map(|entry| entry.expect("its files").path());
    paths.filter(|path| !path.ends_with("done")).collect()
}

/// Runs some random command lines within a folder.
fn fuzz(seed: u64) -> [u64; 8] {
    let mut random = Random::new(seed);
    let scratch = Scratch::new();
    scratch.file("a.fa", ">a\nACGTAC\n>b\nTACG\n");
    let done = ["search", "NN[0,1]N", "1", "a.fa", "--job", "done"];
    assert!(whole(&ran(&mut within(&scratch, &done)).printed()));
    let mut seen = [0; 8];
    for _ in 0..LINES {
        for path in paths(&scratch) {
            let _ = fs::remove_file(&path).or_else(|_| fs::remove_dir_all(&path));
        }
        let file = scratch.file("a.fa", files::any(&mut random));
        scratch.file("empty.fa", "");
        let words = line(&mut random);
        let input = fs::File::open(file).expect("the file");
        let ran = ran(within(&scratch, &words).stdin(input));
        let is_whole = |path: &PathBuf| fs::read(path).is_ok_and(|bytes| whole(&bytes));
        check(&words, &ran, paths(&scratch).iter().any(is_whole));
        seen[ran.status.unwrap_or(1) as usize] += 1;
    }
    seen
}

/// What a run of them came to: every status that does not take a signal or
/// another program.
fn enough(seen: [u64; 8]) {
    for status in [0, 2, 3, 4, 7] {
        assert!(seen[status] >= LINES / 100, "status {status}: {seen:?}");
    }
}

#[test]
fn random_command_lines_end_in_a_known_way() {
    enough(fuzz(11));
}

#[test]
fn other_random_command_lines_end_in_a_known_way() {
    enough(fuzz(12));
}

#[test]
fn a_whole_table_is_known_by_its_last_line() {
    assert!(whole(b"motif\n# end: steps 4, rows 0\n"));
    assert!(!whole(b"motif\n# end: steps 4, rows 0"));
    assert!(!whole(b"# end: steps 4, rows 0\nAC\t1\t1\n"));
    assert!(!whole(b""));
}

#[test]
fn what_a_search_tells_is_a_complaint_of_all_else_and_so_is_a_second_time() {
    let opening = "tulfasheq: 1,024 sequences, 1 letter, quorum 2\n";
    let so_far = "tulfasheq: 2 sequences, 9 letters, quorum 2, 1 row so far\n";
    let closing = "tulfasheq: 1 row, 1,700 steps, 0:01:00\n";
    let warning = "tulfasheq: a.fa: 1 of its 2 sequences is empty\n";
    let complaints = |words: &[&str], err: &str| {
        let ran = Ran {
            words: words.iter().map(OsString::from).collect(),
            status: Some(0),
            out: Vec::new(),
            err: err.to_string(),
        };
        ran.complaints()
    };
    let both = [opening, closing].concat();
    assert_eq!(complaints(&["search", "--job", "x"], &both), "");
    assert_eq!(
        complaints(&["resume", "x"], &[so_far, closing].concat()),
        ""
    );
    for words in [&["search", "--quiet"][..], &["places"], &["status"], &[]] {
        assert_eq!(complaints(words, &both), both);
    }
    assert_eq!(complaints(&["search"], &[opening, so_far].concat()), so_far);
    assert_eq!(complaints(&["search"], &both.repeat(2)), both);
    assert_eq!(complaints(&["search", "--quiet"], warning), "");
    assert_eq!(complaints(&["places", "--list", "x"], warning), "");
    for words in [&["places", "--job=x"][..], &["status"], &["resume", "x"]] {
        assert_eq!(complaints(words, warning), warning);
    }
    for other in [
        "tulfasheq: 1 row, 2 steps\n",
        "tulfasheq: rows, 2 steps, 1\n",
    ] {
        assert_eq!(complaints(&["search"], other), other);
    }
}
