//! No file under its own name that is not whole: programs that are killed while
//! they write a table, that run out of room, or that are two.

mod common;

use common::jobs::{
    end, signal, start, start_as, until_rows, Kind, HEADER, MIDDLE, SIGCONT, SIGSTOP,
};
use common::{limited, parts, run, word, Random, Scratch};
use std::fs::{self, File};
use std::os::unix::fs::FileExt;
use std::path::Path;
use std::thread;
use std::time::{Duration, Instant};

const OLD: &str = "an older table\n";

fn read(path: &Path) -> Vec<u8> {
    fs::read(path).expect("a file")
}

/// Kills a program over and over at random moments while it writes its table
/// over an older one: at every moment the older one stands there whole, or the
/// new one does. KILLS in the environment asks for more than the gate's.
fn killed(words: &[&str], name: &str) {
    let scratch = Scratch::new();
    let kills = std::env::var("KILLS").map_or(20, |kills| kills.parse().expect("a number"));
    let begun = Instant::now();
    let new = run(words).printed();
    let usual = begun.elapsed().as_micros() as u64;
    let mut random = Random::new(35);
    let old = [OLD.as_bytes(), &new].concat();
    let out = scratch.file(name, &old);
    let words = [words, &["--out", word(&out)]].concat();
    let whole = || {
        let found = read(&out);
        assert!(found == old || found == new, "{} bytes", found.len());
        found == new
    };
    let (mut ended, mut partly) = (0, 0);
    for _ in 0..kills {
        let moment = Duration::from_micros(random.below(usual + usual / 2));
        let begun = Instant::now();
        let mut child = start(&words);
        while begun.elapsed() < moment {
            whole();
            thread::sleep(Duration::from_millis(1));
        }
        child.kill().expect("it is killed");
        child.wait().expect("it ends");
        partly += u32::from(!parts(&scratch.path("")).is_empty());
        if whole() {
            ended += 1;
            fs::write(&out, &old).expect("the older one");
        }
    }
    println!("{name}: {kills} kills, {partly} left a part, {ended} came when it was whole");
    assert!(partly > 0, "none came while it was written");
    assert!(run(&words).printed().is_empty());
    assert!(whole(), "the next one is not disturbed");
    assert!(parts(&scratch.path("")).is_empty());
}

#[test]
fn a_search_that_is_killed_leaves_the_older_table() {
    let scratch = Scratch::new();
    let kind = Kind {
        quorum: "64",
        ..MIDDLE
    };
    killed(&kind.over(&scratch).words(), "table.tsv");
}

#[test]
fn places_that_are_killed_leave_the_older_ones() {
    let scratch = Scratch::new();
    let search = MIDDLE.over(&scratch);
    let template = "NNN[0,9]NN";
    let list = run(&["search", template, "60", word(&search.file)]).printed();
    let list = scratch.file("list.tsv", list);
    let file = word(&search.file);
    let words = ["places", template, file, "--list", word(&list), "--gff"];
    killed(&words, "places.gff");
}

#[test]
fn a_second_program_does_not_write_the_same_table() {
    let scratch = Scratch::new();
    let search = MIDDLE.over(&scratch);
    let out = scratch.file("table.tsv", OLD);
    let words = [&search.words()[..], &["--out", word(&out)]].concat();
    let first = start(&words);
    let begun = Instant::now();
    while parts(&scratch.path("")).is_empty() {
        assert!(
            begun.elapsed() < Duration::from_secs(60),
            "nothing is written"
        );
        thread::sleep(Duration::from_millis(1));
    }
    // Neither a search nor one with a job, which would write it at its end.
    let job = scratch.path("job");
    let with_job = [&words[..], &["--job", word(&job)]].concat();
    for words in [&words, &with_job] {
        let said = run(words).said(6);
        assert!(said.contains("another program is writing it"), "{said}");
    }
    assert!(!job.exists());
    assert_eq!(read(&out), OLD.as_bytes());
    end(first).printed();
    assert!(read(&out) == search.table());
}

#[test]
fn a_limit_on_the_size_of_files_leaves_the_older_table() {
    let scratch = Scratch::new();
    let search = MIDDLE.over(&scratch);
    let out = scratch.file("table.tsv", OLD);
    for (blocks, stays) in [(1, true), (0, false)] {
        let words = [&search.words()[..], &["--out", word(&out)]].concat();
        let said = end(start_as(limited(blocks), &words)).said(4);
        assert!(said.contains("file too large"), "{said}");
        assert!(said.contains("table.tsv is as it was"), "{said}");
        assert_eq!(said.contains("not whole, and stays there"), stays, "{said}");
        assert_eq!(!parts(&scratch.path("")).is_empty(), stays);
        assert_eq!(read(&out), OLD.as_bytes());
    }
}

#[test]
fn a_table_of_a_job_that_was_changed_on_its_way_does_not_take_a_name() {
    let scratch = Scratch::new();
    let search = MIDDLE.over(&scratch);
    let out = scratch.file("table.tsv", OLD);
    for i in 0..20 {
        let folder = scratch.path(&format!("job-{i}"));
        let mut words = search.in_job(&folder);
        words.extend(["--out", word(&out)]);
        let child = start(&words);
        until_rows(&folder, HEADER.len() as u64);
        signal(&child, SIGSTOP);
        let rows = folder.join("rows.tsv");
        let soon = !String::from_utf8_lossy(&read(&rows)).contains("# end");
        let file = File::options().write(true).open(&rows).expect("rows");
        file.write_at(b"?", HEADER.len() as u64).expect("a byte");
        signal(&child, SIGCONT);
        let ran = end(child);
        // Where it was over already, the table may have been written out.
        if soon {
            assert!(ran.said(7).contains(word(&rows)));
            assert_eq!(read(&out), OLD.as_bytes());
            assert!(parts(&scratch.path("")).is_empty());
            return;
        }
    }
    panic!("the search ends too soon");
}
