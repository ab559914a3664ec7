//! What a job's folder may be: two programs at once, folders in which a search
//! may begin, and jobs that have ended.

mod common;

use common::jobs::{
    copy, end, files, same, signal, start, until_rows, whole, Kind, Search, HEADER, LOCK, LONG,
    MIDDLE, SHORT, SIGTERM,
};
use common::{program, run, word, Scratch};
use std::ffi::OsStr;
use std::fs;
use std::os::unix::ffi::OsStrExt;
use std::path::Path;
use std::process::Command;

/// That a run is refused with a status, and leaves a folder as it is.
fn refused(words: &[&str], status: i32, folder: &Path) -> String {
    let before = files(folder);
    let said = run(words).said(status);
    assert!(files(folder) == before, "{words:?} changed the folder");
    said
}

fn state_line(folder: &Path) -> String {
    let text = String::from_utf8(run(&["status", word(folder)]).printed()).expect("text");
    text.lines().next().unwrap_or("").to_string()
}

/// That a second program is refused while a first one works on a job.
fn busy(search: &Search, folder: &Path) {
    assert_eq!(state_line(folder), "state\trunning");
    for words in [vec!["resume", word(folder)], search.in_job(folder)] {
        let said = run(&words).said(6);
        assert!(said.contains(word(folder)), "{said}");
    }
}

#[test]
fn the_second_of_two_programs_on_a_job_is_refused() {
    let scratch = Scratch::new();
    // It lasts longer than the second one tries, and there is no more to it.
    let kind = Kind {
        quorum: "175",
        ..LONG
    };
    let search = kind.over(&scratch);
    let expected = search.table();
    let folder = scratch.path("job");
    // The first one begins the job, and is stopped.
    let first = start(&search.in_job(&folder));
    until_rows(&folder, HEADER.len() as u64);
    busy(&search, &folder);
    signal(&first, SIGTERM);
    end(first).said(5);
    assert_eq!(state_line(&folder), "state\tstopped");
    // The next one goes on to the end.
    let rows = fs::metadata(folder.join("rows.tsv")).expect("rows").len();
    let first = start(&["resume", word(&folder)]);
    until_rows(&folder, rows);
    busy(&search, &folder);
    whole(end(first), &folder, &expected);
    assert_eq!(state_line(&folder), "state\tended");
}

#[test]
fn two_searches_begun_at_once_in_one_folder_do_not_mix() {
    let scratch = Scratch::new();
    let search = SHORT.over(&scratch);
    let expected = search.table();
    for i in 0..20 {
        let folder = scratch.path(&format!("job-{i}"));
        let both = [
            start(&search.in_job(&folder)),
            start(&search.in_job(&folder)),
        ];
        let both = both.map(end);
        let ended = both.iter().filter(|ran| ran.status == Some(0)).count();
        assert_eq!(ended, 1, "{both:?}");
        for ran in both {
            if ran.status == Some(0) {
                whole(ran, &folder, &expected);
            } else {
                assert!(matches!(ran.status, Some(2 | 6)), "{}", ran.err);
                assert!(ran.err.contains(word(&folder)), "{}", ran.err);
            }
        }
    }
}

#[test]
fn a_search_does_not_begin_where_there_is_a_job() {
    let scratch = Scratch::new();
    let search = MIDDLE.over(&scratch);
    let other = SHORT.over(&scratch);
    let folder = scratch.path("job");
    search.stopped(&folder);
    for search in [&search, &other] {
        let said = refused(&search.in_job(&folder), 2, &folder);
        assert!(said.contains("tulfasheq resume"), "{said}");
    }
    whole(run(&search.further(&folder)), &folder, &search.table());
    refused(&other.in_job(&folder), 2, &folder);
}

#[test]
fn how_to_go_on_with_a_job_that_is_there_can_be_pasted() {
    let scratch = Scratch::new();
    let search = SHORT.over(&scratch);
    let odd = OsStr::from_bytes(b"it's\ta\njob\xff");
    let table = scratch.path("my table");
    for (name, out) in [
        (OsStr::new("my job"), &[][..]),
        (odd, &[]),
        (OsStr::new("another"), &["--out", "my table"]),
    ] {
        let begin = |out: &[&str]| {
            let mut program = program();
            program.current_dir(scratch.path("")).args(search.words());
            let begun = program.arg("--job").arg(name).args(out).output();
            begun.expect("the program starts")
        };
        assert_eq!(begin(&[]).status.code(), Some(0));
        let again = begin(out);
        assert_eq!(again.status.code(), Some(2));
        let said = String::from_utf8(again.stderr).expect("text");
        let command = said.split(" holds a search already: ").nth(1);
        let command = command.and_then(|told| told.strip_suffix(" goes on with it\n"));
        let pasted = Command::new("bash")
            .args(["-c", command.expect("a command")])
            .current_dir(scratch.path(""))
            .output()
            .expect("bash");
        let written = match out {
            [] => pasted.stdout,
            _ => fs::read(&table).unwrap_or_default(),
        };
        assert!(written == search.table(), "{said}");
        assert_eq!(table.exists(), !out.is_empty());
    }
}

#[test]
fn a_search_does_not_begin_among_other_files() {
    let scratch = Scratch::new();
    let search = SHORT.over(&scratch);
    // Also not over files that have the names of a job's.
    for name in ["notes.txt", "sequences.fa", "rows.tsv", "state.new"] {
        let folder = scratch.path(&format!("with-{name}"));
        fs::create_dir(&folder).expect("a new folder");
        fs::copy(&search.file, folder.join(name)).expect("a file");
        let said = refused(&search.in_job(&folder), 7, &folder);
        assert!(said.contains(name), "{said}");
    }
    // Nor over rows whose state is gone.
    let folder = scratch.path("without-state");
    run(&search.in_job(&folder)).printed();
    fs::remove_file(folder.join("state")).expect("the state goes");
    let said = refused(&search.in_job(&folder), 7, &folder);
    assert!(said.contains("rows.tsv"), "{said}");
    // Nor in a file.
    run(&search.in_job(&search.file)).said(4);
}

#[test]
fn a_search_begins_in_an_empty_folder_or_where_one_was_killed_before_its_first_save() {
    let scratch = Scratch::new();
    let search = SHORT.over(&scratch);
    let expected = search.table();
    let sequences = fs::read(&search.file).expect("the sequences");
    let (header, state) = (HEADER.as_bytes(), &b"tulfasheq job 2\nst"[..]);
    let lock: (&str, &[u8]) = ("lock", LOCK);
    let left: [&[(&str, &[u8])]; 9] = [
        &[],
        &[lock],
        &[("lock", b"")],
        &[("lock", &LOCK[..9])],
        &[lock, ("sequences.fa", b"")],
        &[lock, ("sequences.fa", &sequences[..100])],
        &[lock, ("sequences.fa", &sequences), ("rows.tsv", b"")],
        &[
            lock,
            ("sequences.fa", b">other\nACGT\n"),
            ("rows.tsv", header),
        ],
        &[lock, ("rows.tsv", header), ("state.new", state)],
    ];
    for (i, left) in left.iter().enumerate() {
        let folder = scratch.path(&format!("job-{i}"));
        fs::create_dir(&folder).expect("a new folder");
        for (name, bytes) in *left {
            fs::write(folder.join(name), bytes).expect("a file");
        }
        refused(&["resume", word(&folder)], 7, &folder);
        whole(run(&search.in_job(&folder)), &folder, &expected);
    }
}

#[test]
fn what_is_no_job_is_not_gone_on_with() {
    let scratch = Scratch::new();
    let nowhere = scratch.path("nowhere");
    let empty = scratch.path("empty");
    fs::create_dir(&empty).expect("a new folder");
    let file = scratch.file("file", "text");
    for command in ["resume", "status"] {
        let said = run(&[command, word(&nowhere)]).said(4);
        assert!(said.contains(word(&nowhere)), "{said}");
        assert!(!nowhere.exists());
        let said = refused(&[command, word(&empty)], 7, &empty);
        assert!(said.contains(word(&empty)), "{said}");
        let said = run(&[command, word(&file)]).said(7);
        assert!(said.contains(word(&file)), "{said}");
        assert_eq!(fs::read(&file).expect("the file"), b"text");
    }
}

#[test]
fn a_job_that_has_ended_gives_its_table_again() {
    let scratch = Scratch::new();
    let search = SHORT.over(&scratch);
    let expected = search.table();
    let folder = scratch.path("job");
    whole(run(&search.in_job(&folder)), &folder, &expected);
    let before = files(&folder);
    whole(run(&["resume", word(&folder)]), &folder, &expected);
    let out = scratch.path("table.tsv");
    let printed = run(&["resume", word(&folder), "--out", word(&out)]).printed();
    assert!(printed.is_empty());
    same(&fs::read(&out).expect("a table"), &expected, "--out");
    let printed = run(&["resume", word(&folder), "--out", "-"]).printed();
    same(&printed, &expected, "--out -");
    assert!(files(&folder) == before, "the folder was changed");
    // It is only read: nothing is locked or made any more.
    fs::remove_file(folder.join("lock")).expect("the lock goes");
    let before = files(&folder);
    whole(run(&["resume", word(&folder)]), &folder, &expected);
    assert!(files(&folder) == before, "the folder was changed");
}

#[test]
fn a_table_is_not_written_out_over_a_file_of_the_job() {
    let scratch = Scratch::new();
    let search = MIDDLE.over(&scratch);
    let (stopped, ended) = (scratch.path("stopped"), scratch.path("ended"));
    search.stopped(&stopped);
    copy(&stopped, &ended);
    run(&search.further(&ended)).printed();
    for folder in [&stopped, &ended] {
        for name in ["sequences.fa", "rows.tsv", "state", "state.new", "lock"] {
            for folder_again in [folder.clone(), folder.join(".")] {
                let out = folder_again.join(name);
                refused(&["resume", word(folder), "--out", word(&out)], 2, folder);
            }
        }
        // Nor by another name of it.
        let link = scratch.path("link");
        fs::hard_link(folder.join("rows.tsv"), &link).expect("a link");
        refused(&["resume", word(folder), "--out", word(&link)], 2, folder);
        fs::remove_file(link).expect("the link goes");
    }
    whole(run(&search.further(&stopped)), &stopped, &search.table());
    // A new job is not begun where its table would go over its own files.
    let folder = scratch.path("new");
    let out = folder.join("rows.tsv");
    let mut words = search.in_job(&folder);
    words.extend(["--out", word(&out)]);
    run(&words).said(2);
    assert!(!folder.exists(), "nothing was done");
}
