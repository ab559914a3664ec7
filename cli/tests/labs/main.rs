//! What labs have: files that look like an answer and are none, soft-masked
//! and packed files, files of other formats, templates and quorums in habits of
//! other tools.

#[path = "../common/mod.rs"]
mod common;
#[path = "../common/within.rs"]
mod within;

mod formats;
mod habits;
mod letters;
mod packed;
mod records;

use common::ran::WARNINGS;
use common::{Ran, Scratch};
use std::fs;
use within::{ran, within};

/// What is said of a file that is refused with this status, in a search and in
/// places: the same, and nothing is written or made.
fn refused(name: &str, bytes: &[u8], status: i32) -> String {
    let scratch = Scratch::new();
    scratch.file(name, bytes);
    let out = scratch.file("out.tsv", "what was there");
    let words = |all: &[&str]| {
        let said = ran(&mut within(&scratch, all)).said(status);
        assert_eq!(fs::read(&out).expect("a file"), b"what was there");
        assert!(!scratch.path("job").exists(), "a job was made");
        said
    };
    let search = words(&["search", "N", "1", name, "--out", "out.tsv", "--job", "job"]);
    let places = words(&["places", "N", "A", name, "--out", "out.tsv"]);
    assert_eq!(search, places);
    assert!(search.lines().count() <= 3, "{search}");
    search
}

/// What a run that went well printed, and what it said of its sequences.
fn searched(scratch: &Scratch, words: &[&str]) -> (String, String) {
    well(ran(&mut within(scratch, words)))
}

/// The same of a run that was.
fn well(ran: Ran) -> (String, String) {
    assert_eq!(ran.status, Some(0), "{}", ran.err);
    let table = String::from_utf8(ran.out).expect("a table is text");
    let warned = |line: &&str| WARNINGS.iter().any(|words| line.contains(words));
    let said = ran.err.split_inclusive('\n').filter(warned).collect();
    (table, said)
}

/// Runs a command as a person pastes it into a shell.
fn pasted(scratch: &Scratch, command: &str) {
    let mut shell = std::process::Command::new("sh");
    let shell = shell.args(["-c", command]).current_dir(scratch.path(""));
    assert!(shell.status().expect("a shell").success(), "{command}");
}
