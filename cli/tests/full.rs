//! Disks that are full, limits on the size of files, and outputs that take
//! nothing: told, and the job is whole.

mod common;

use common::jobs::{end, start_as, whole, Started, SHORT};
use common::{limited, program, word, Ran, Scratch};
use std::process::Stdio;

#[test]
fn a_limit_on_the_size_of_files_stops_a_job_that_goes_on_without_it() {
    let scratch = Scratch::new();
    let search = SHORT.over(&scratch);
    let expected = search.table();
    let most = expected.len() as u64 / 512 + 1;
    for blocks in [0, 1, 2, 4, 8, most / 4, most / 2, most - 1] {
        let folder = scratch.path(&format!("job-{blocks}"));
        let said = end(start_as(limited(blocks), &search.in_job(&folder))).said(4);
        assert!(said.contains(word(&folder)), "{said}");
        assert!(said.contains("file too large"), "{said}");
        // Without more room it does not get further, and loses nothing.
        let said = end(start_as(limited(blocks), &search.further(&folder))).said(4);
        assert!(said.contains("file too large"), "{said}");
        whole(common::run(&search.further(&folder)), &folder, &expected);
    }
    let folder = scratch.path("enough");
    let ran = end(start_as(limited(most), &search.in_job(&folder)));
    whole(ran, &folder, &expected);
}

#[test]
fn a_table_that_cannot_be_written_out_stays_in_the_job() {
    let scratch = Scratch::new();
    let search = SHORT.over(&scratch);
    let expected = search.table();
    let folder = scratch.path("job");
    let nowhere = scratch.path("nowhere/table.tsv");
    for out in ["/dev/full", word(&nowhere)] {
        for words in [search.words(), search.further(&folder)] {
            let words: Vec<&str> = words.into_iter().chain(["--out", out]).collect();
            let said = end(start_as(program(), &words)).said(4);
            assert!(said.contains(out), "{said}");
        }
    }
    whole(common::run(&search.further(&folder)), &folder, &expected);
}

/// Runs the program with a standard output that takes nothing.
fn into(out: Stdio, words: &[&str]) -> Ran {
    let child = program()
        .args(words)
        .stdin(Stdio::null())
        .stdout(out)
        .stderr(Stdio::piped())
        .spawn()
        .expect("the program starts");
    end(Started::new(child, words))
}

/// A full disk, and a pipe that nobody reads.
fn taking_nothing() -> [Stdio; 2] {
    let full = std::fs::OpenOptions::new()
        .write(true)
        .open("/dev/full")
        .expect("/dev/full");
    let (reader, writer) = std::io::pipe().expect("a pipe");
    drop(reader);
    [full.into(), writer.into()]
}

#[test]
fn an_output_that_takes_nothing_is_told_and_the_job_is_whole() {
    let scratch = Scratch::new();
    let search = SHORT.over(&scratch);
    let expected = search.table();
    for (i, out) in taking_nothing().into_iter().enumerate() {
        let folder = scratch.path(&format!("job-{i}"));
        let said = into(out, &search.in_job(&folder)).said(4);
        assert!(said.contains("standard output"), "{said}");
        whole(common::run(&search.further(&folder)), &folder, &expected);
    }
    let folder = scratch.path("job-0");
    for words in [
        search.words(),
        vec!["resume", word(&folder)],
        vec!["status", word(&folder)],
        vec!["help"],
    ] {
        for out in taking_nothing() {
            let said = into(out, &words).said(4);
            assert!(said.contains("standard output"), "{words:?}: {said}");
        }
    }
}
