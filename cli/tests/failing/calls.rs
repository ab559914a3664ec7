//! All calls of a run, one after the other.

use crate::common::jobs::{copy, files, state_value, whole, Search, SHORT};
use crate::common::{word, Ran, Scratch};
use crate::faults::{Faults, Hit, OLDER};
use std::fs;
use std::path::{Path, PathBuf};

/// What happens at a call, as `failing.c` has it, and whether the program lives
/// on to tell.
const WAYS: [(&str, bool); 6] = [
    ("full", true),
    ("half", true),
    ("error", true),
    ("before", false),
    ("after", false),
    ("lost", false),
];

/// That an older table stands there, or the whole new one.
fn old_or_whole(out: &Path, expected: &[u8], what: &str) {
    let found = fs::read(out).expect("a table");
    assert!(found == OLDER.as_bytes() || found == expected, "{what}");
}

impl Hit {
    /// How the program ended where this call went wrong, and it lived on or was
    /// killed there. Whose an older file was is kept as far as it may be.
    fn check(&self, ran: Ran, lives: bool, what: &str) {
        if !lives {
            assert_eq!(ran.status, None, "{what}: {}", ran.err);
        } else if self.call == "fchown" {
            ran.printed();
        } else {
            let said = ran.said(4);
            assert!(said.contains(&self.file), "{what}: {said}");
        }
    }
}

impl Faults {
    /// Goes through all calls of a run, in one way of going wrong. `prepare`
    /// makes in a folder what there is before the run, and answers with its
    /// words; at its end a table is written out over an older one there.
    /// `check` looks at what a run left in which a call went wrong, and is
    /// given the words too. Answers with the number of calls.
    fn every_call(
        &self,
        expected: &[u8],
        (how, lives): (&str, bool),
        prepare: impl Fn(&Scratch) -> Vec<String>,
        check: impl Fn(&Scratch, &[String], &str),
    ) -> u64 {
        for at in 1.. {
            let scratch = Scratch::new();
            let mut words = prepare(&scratch);
            let out = scratch.file("table.tsv", OLDER);
            words.extend(["--out", word(&out)].map(str::to_string));
            let (ran, hits) = self.run(&words, at, how);
            let Some(hit) = hits.first() else {
                assert!(ran.printed().is_empty());
                assert!(fs::read(out).expect("the table") == expected);
                return at - 1;
            };
            let what = format!("{how} at call {at}, {hit:?}");
            hit.check(ran, lives, &what);
            old_or_whole(&out, expected, &what);
            check(&scratch, &words, &what);
        }
        unreachable!("a run has an end");
    }

    /// The same of a job's run. `begin` makes the job's folder as it is before;
    /// after it the job goes on to its end.
    fn every_call_of_a_job(
        &self,
        search: &Search,
        expected: &[u8],
        way: (&str, bool),
        begin: impl Fn(&Path),
    ) -> u64 {
        let prepare = |scratch: &Scratch| {
            let folder = scratch.path("job");
            begin(&folder);
            owned(&search.further(&folder))
        };
        self.every_call(expected, way, prepare, |scratch, _, what| {
            let folder = scratch.path("job");
            if folder.join("state").exists() {
                let ran = self.well(&["status", word(&folder)]);
                assert_eq!(ran.status, Some(0), "{what}: {}", ran.err);
            }
            let ran = self.well(&search.further(&folder));
            assert_eq!(ran.status, Some(0), "{what}: {}", ran.err);
            whole(ran, &folder, expected);
        })
    }

    /// The same of a run that keeps no job: what is left does not disturb the
    /// next.
    fn every_call_without_a_job(&self, words: &[&str], way: (&str, bool)) -> u64 {
        let expected = self.well(words).printed();
        self.every_call(
            &expected,
            way,
            |_| owned(words),
            |scratch, words, what| {
                self.well(words).printed();
                let table = fs::read(scratch.path("table.tsv"));
                assert!(table.expect("the table") == expected, "{what}");
                let left = files(&scratch.path(""));
                assert_eq!(left.keys().collect::<Vec<_>>(), ["table.tsv"], "{what}");
            },
        )
    }

    /// A job that was killed in its second leg, with rows that are not saved.
    fn killed(&self, search: &Search, scratch: &Scratch) -> PathBuf {
        for at in 1..200 {
            let folder = scratch.path(&format!("killed-{at}"));
            let (_, hits) = self.run(&search.in_job(&folder), at, "after");
            let hit = hits.first().expect("a call that goes wrong");
            let rows = hit.call == "write" && hit.file.ends_with("rows.tsv");
            if rows && state_value(&folder, "rows") > Some(0) {
                return folder;
            }
        }
        panic!("the search has no second leg with rows");
    }
}

/// Words that hang on nothing.
fn owned(words: &[&str]) -> Vec<String> {
    words.iter().map(|word| (*word).to_string()).collect()
}

#[test]
fn every_call_of_a_search_may_go_wrong() {
    let scratch = Scratch::new();
    let faults = Faults::new(&scratch);
    let search = SHORT.over(&scratch);
    let expected = search.table();
    for way in WAYS {
        let calls = faults.every_call_of_a_job(&search, &expected, way, |_| {});
        println!("search, {}: {calls} calls", way.0);
        assert!(calls > 30, "there are more calls");
    }
}

#[test]
fn every_call_of_a_resume_may_go_wrong() {
    let scratch = Scratch::new();
    let faults = Faults::new(&scratch);
    let search = SHORT.over(&scratch);
    let expected = search.table();
    let killed = faults.killed(&search, &scratch);
    for way in WAYS {
        let begin = |folder: &Path| copy(&killed, folder);
        let calls = faults.every_call_of_a_job(&search, &expected, way, begin);
        println!("resume, {}: {calls} calls", way.0);
        assert!(calls > 20, "there are more calls");
    }
}

#[test]
fn every_call_of_a_table_without_a_job_may_go_wrong() {
    let scratch = Scratch::new();
    let faults = Faults::new(&scratch);
    let file = scratch.file("a.fa", ">a\nACGTACGT\n>b\nACGGT\n");
    let search = ["search", "NN[0,2]N", "1", word(&file)];
    let places = ["places", "N", "A", word(&file), "--gff"];
    for words in [&search[..], &places] {
        for way in WAYS {
            let calls = faults.every_call_without_a_job(words, way);
            println!("{}, {}: {calls} calls", words[0], way.0);
            assert!(calls > 8, "there are more calls");
        }
    }
}
