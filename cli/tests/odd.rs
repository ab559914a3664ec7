//! Odd things in a job's folder: links, pipes and folders under the names of
//! its files, a lock that is removed, a table that is emptied on the way. None
//! is followed, waited for or written over, and nothing looks whole that is
//! not.

mod common;

use common::jobs::{
    copy, end, files, signal, start, until_rows, whole, Search, Started, HEADER, LOCK, MIDDLE,
    SHORT, SIGCONT, SIGSTOP,
};
use common::{run, word, Ran, Scratch};
use std::fs::{self, File};
use std::os::unix::fs::symlink;
use std::path::Path;
use std::process::Command;
use std::thread;
use std::time::{Duration, Instant};

/// Runs the program, which must not wait for ever.
fn ends(words: &[&str]) -> Ran {
    let mut child = start(words);
    let begun = Instant::now();
    while child.try_wait().expect("a program").is_none() {
        if begun.elapsed() > Duration::from_secs(60) {
            child.kill().expect("it is killed");
            panic!("{words:?} does not end");
        }
        thread::sleep(Duration::from_millis(5));
    }
    end(child)
}

/// Puts something that is no plain file under a name.
fn put(kind: &str, path: &Path, target: &Path) {
    match kind {
        "link" => symlink(target, path).expect("a link"),
        "folder" => fs::create_dir(path).expect("a folder"),
        _ => {
            let made = Command::new("mkfifo").arg(path).status();
            assert!(made.expect("mkfifo runs").success(), "a pipe");
        }
    }
}

/// What is said of it.
fn no_plain_file(path: &Path) -> String {
    format!("tulfasheq: {}: it is no plain file\n", word(path))
}

#[test]
fn no_file_of_a_job_may_be_a_link_a_pipe_or_a_folder() {
    let scratch = Scratch::new();
    let search = MIDDLE.over(&scratch);
    let stopped = scratch.path("stopped");
    search.stopped(&stopped);
    let target = scratch.file("precious", "what is not the job's");
    for name in ["state", "state.new", "rows.tsv", "sequences.fa", "lock"] {
        for kind in ["link", "pipe", "folder"] {
            let folder = scratch.path(&format!("{kind}-{}", name.len()));
            copy(&stopped, &folder);
            let path = folder.join(name);
            let _ = fs::remove_file(&path);
            put(kind, &path, &target);
            let said = ends(&["resume", word(&folder)]).said(7);
            assert_eq!(said, no_plain_file(&path));
            // What is being written is none that is looked at.
            if name != "state.new" {
                ends(&["status", word(&folder)]).said(7);
            }
            assert_eq!(fs::read(&target).expect("a file"), b"what is not the job's");
        }
    }
}

#[test]
fn a_search_is_not_begun_over_what_only_looks_left_behind() {
    let scratch = Scratch::new();
    let search = SHORT.over(&scratch);
    let target = scratch.file("precious", "what is not the job's");
    // A lock that does not say that it is one.
    for (i, lock) in [&b""[..], b"mine", &LOCK[..9]].iter().enumerate() {
        let folder = scratch.path(&format!("lock-{i}"));
        fs::create_dir(&folder).expect("a new folder");
        fs::write(folder.join("lock"), lock).expect("a file");
        fs::copy(&target, folder.join("sequences.fa")).expect("a file");
        let before = files(&folder);
        run(&search.in_job(&folder)).said(7);
        assert!(files(&folder) == before, "the folder was changed");
    }
    // One that does, and no plain file beside it.
    for name in ["sequences.fa", "rows.tsv", "state.new"] {
        for kind in ["link", "pipe", "folder"] {
            let folder = scratch.path(&format!("{kind}-{}", name.len()));
            fs::create_dir(&folder).expect("a new folder");
            fs::write(folder.join("lock"), LOCK).expect("a file");
            put(kind, &folder.join(name), &target);
            let said = ends(&search.in_job(&folder)).said(7);
            assert_eq!(said, no_plain_file(&folder.join(name)));
        }
    }
    // A lock that is a link to nothing.
    let folder = scratch.path("dangling");
    fs::create_dir(&folder).expect("a new folder");
    symlink(scratch.path("none"), folder.join("lock")).expect("a link");
    run(&search.in_job(&folder)).said(7);
    assert!(!scratch.path("none").exists());
    assert_eq!(fs::read(&target).expect("a file"), b"what is not the job's");
}

/// Begins a job, waits for its first rows, and holds the program there.
fn held(search: &Search, folder: &Path, out: &Path) -> Started {
    let mut words = search.in_job(folder);
    words.extend(["--out", word(out)]);
    let child = start(&words);
    until_rows(folder, HEADER.len() as u64);
    signal(&child, SIGSTOP);
    child
}

#[test]
fn a_table_that_is_emptied_on_the_way_is_not_written_out() {
    let scratch = Scratch::new();
    let search = MIDDLE.over(&scratch);
    let (folder, out) = (scratch.path("job"), scratch.path("table.tsv"));
    let child = held(&search, &folder, &out);
    let table = File::options().write(true).open(folder.join("rows.tsv"));
    table.and_then(|table| table.set_len(0)).expect("a table");
    signal(&child, SIGCONT);
    let said = end(child).said(7);
    assert!(said.contains("rows.tsv"), "{said}");
    assert!(!out.exists(), "a table is written out");
    run(&["resume", word(&folder)]).said(7);
}

#[test]
fn without_its_lock_a_job_is_still_one_program_s() {
    let scratch = Scratch::new();
    let search = MIDDLE.over(&scratch);
    let (folder, out) = (scratch.path("job"), scratch.path("table.tsv"));
    let child = held(&search, &folder, &out);
    fs::remove_file(folder.join("lock")).expect("the lock goes");
    run(&["resume", word(&folder)]).said(6);
    let told = run(&["status", word(&folder)]).printed();
    assert!(told.starts_with(b"state\trunning\n"));
    signal(&child, SIGCONT);
    end(child).printed();
    assert!(fs::read(&out).expect("a table") == search.table());
}

#[test]
fn a_job_that_is_just_being_begun_is_another_program_s() {
    let scratch = Scratch::new();
    let search = SHORT.over(&scratch);
    let folder = scratch.path("job");
    fs::create_dir(&folder).expect("a new folder");
    let lock = File::create(folder.join("lock")).expect("a lock");
    lock.lock().expect("the lock is ours");
    for words in [
        vec!["resume", word(&folder)],
        vec!["status", word(&folder)],
        search.in_job(&folder),
    ] {
        run(&words).said(6);
    }
    lock.unlock().expect("the lock is free");
    run(&["resume", word(&folder)]).said(7);
    whole(run(&search.in_job(&folder)), &folder, &search.table());
}
