//! Jobs whose files were damaged, lost or exchanged: refused in words that name
//! a file, and left as they are. And files that look damaged and are not, since
//! a program that is killed leaves them so.

mod common;

use common::jobs::{copy, end, files, signal, start, until_rows, whole, Kind, MIDDLE, SIGTERM};
use common::{run, word, Random, Scratch};
use std::fs;
use std::path::Path;

/// The files that a job cannot do without.
const FILES: [&str; 3] = ["sequences.fa", "rows.tsv", "state"];

/// That both commands refuse a folder, name a file of it, and leave it alone.
fn refused(folder: &Path, what: &str) -> String {
    let before = files(folder);
    let mut words = String::new();
    for command in ["status", "resume"] {
        let ran = run(&[command, word(folder)]);
        assert_eq!(ran.status, Some(7), "{what}: {}", ran.err);
        words = ran.said(7);
        let named = FILES
            .iter()
            .any(|name| words.contains(word(&folder.join(name))));
        assert!(named || words.contains("holds no saved search"), "{words}");
        assert!(files(folder) == before, "{what}: {command} changed it");
    }
    words
}

/// A copy of a job with one file changed is refused.
fn refused_with(stopped: &Path, name: &str, what: &str, change: impl Fn(&Path)) -> String {
    let scratch = Scratch::new();
    let folder = scratch.path("job");
    copy(stopped, &folder);
    change(&folder.join(name));
    refused(&folder, &format!("{name}, {what}"));
    // A copy may lack the lock, and gets none by being refused.
    fs::remove_file(folder.join("lock")).expect("the lock goes");
    refused(&folder, &format!("{name}, {what}, no lock"))
}

#[test]
fn a_job_with_a_damaged_file_is_refused_and_left_alone() {
    let scratch = Scratch::new();
    let stopped = scratch.path("stopped");
    MIDDLE.over(&scratch).stopped(&stopped);
    let mut random = Random::new(21);
    for name in FILES {
        let bytes = fs::read(stopped.join(name)).expect("a file of the job");
        let size = bytes.len();
        let write = |bytes: &[u8]| {
            let bytes = bytes.to_vec();
            move |path: &Path| fs::write(path, &bytes).expect("it is written")
        };
        refused_with(&stopped, name, "missing", |path| {
            fs::remove_file(path).expect("it goes");
        });
        refused_with(&stopped, name, "a folder", |path| {
            fs::remove_file(path).expect("it goes");
            fs::create_dir(path).expect("a new folder");
        });
        let below = |random: &mut Random| random.below(size as u64) as usize;
        let some = [below(&mut random), below(&mut random), below(&mut random)];
        for cut in [0, 1, size / 2, size - 1].into_iter().chain(some) {
            let what = format!("cut at {cut} of {size}");
            refused_with(&stopped, name, &what, write(&bytes[..cut]));
        }
        for _ in 0..25 {
            let (at, bit) = (below(&mut random), random.below(8));
            let mut changed = bytes.clone();
            changed[at] ^= 1 << bit;
            let what = format!("bit {bit} of byte {at} of {size}");
            refused_with(&stopped, name, &what, write(&changed));
        }
        if name != "rows.tsv" {
            // What stands behind the rows that were saved is another matter.
            let longer = [&bytes[..], b"\n"].concat();
            refused_with(&stopped, name, "a byte more", write(&longer));
        }
    }
    let state = fs::read_to_string(stopped.join("state")).expect("the state");
    let other = state.replacen("tulfasheq job 2\n", "tulfasheq job 3\n", 1);
    let said = refused_with(&stopped, "state", "layout 3", |path| {
        fs::write(path, &other).expect("it is written");
    });
    assert!(said.contains("layout \"3\""), "{said}");
    // Nor is one read by the layout of the version before.
    let other = state.replacen("tulfasheq job 2\n", "tulfasheq job 1\n", 1);
    refused_with(&stopped, "state", "layout 1", |path| {
        fs::write(path, &other).expect("it is written");
    });
}

#[test]
fn a_job_with_a_file_of_another_job_is_refused_and_left_alone() {
    let scratch = Scratch::new();
    let stopped = scratch.path("stopped");
    MIDDLE.over(&scratch).stopped(&stopped);
    let others = [
        ("sequences", Kind { seed: 4, ..MIDDLE }),
        (
            "template",
            Kind {
                template: "NNN[0,29]NN[0,30]NN[0,30]NN",
                ..MIDDLE
            },
        ),
        (
            "quorum",
            Kind {
                quorum: "61",
                ..MIDDLE
            },
        ),
    ];
    for (what, other) in others {
        let folder = scratch.path(what);
        other.over(&scratch).stopped(&folder);
        for name in FILES {
            let theirs = fs::read(folder.join(name)).expect("a file of the other job");
            if theirs == fs::read(stopped.join(name)).expect("a file of the job") {
                // They are over the same sequences.
                assert!(name == "sequences.fa" && what != "sequences");
                continue;
            }
            refused_with(&stopped, name, &format!("of another {what}"), |path| {
                fs::write(path, &theirs).expect("it is written");
            });
        }
    }
}

#[test]
fn what_a_killed_program_leaves_is_no_damage() {
    let scratch = Scratch::new();
    let search = MIDDLE.over(&scratch);
    let expected = search.table();
    let stopped = scratch.path("stopped");
    search.stopped(&stopped);
    let rows = fs::read(stopped.join("rows.tsv")).expect("rows");
    assert!(expected.starts_with(&rows) && rows.len() + 10_000 < expected.len());
    let later = &expected[rows.len()..];
    let line = 1 + later.iter().position(|b| *b == b'\n').expect("a line");
    let longer = [later, &[0; 5_000]].concat();
    let tails: [(&str, &[u8]); 7] = [
        ("garbage", b"\0\xff garbage\n\n>"),
        ("zeros", &[0; 5_000]),
        ("half a line", &later[..line / 2]),
        ("a line", &later[..line]),
        ("later rows", &later[..10_000]),
        ("all later rows and the last line", later),
        ("more than the whole table", &longer),
    ];
    for (what, tail) in tails {
        let folder = scratch.path(what);
        copy(&stopped, &folder);
        fs::write(folder.join("rows.tsv"), [&rows, tail].concat()).expect("rows");
        // A state that was not yet whole, and a lock that was not copied.
        fs::write(folder.join("state.new"), "tulfasheq job 2\nst").expect("a state");
        fs::remove_file(folder.join("lock")).expect("the lock goes");
        let before = files(&folder);
        run(&["status", word(&folder)]).printed();
        assert!(files(&folder) == before, "status changed the folder");
        whole(run(&search.further(&folder)), &folder, &expected);
    }
}

#[test]
fn an_earlier_state_with_later_rows_is_no_damage() {
    let scratch = Scratch::new();
    let search = MIDDLE.over(&scratch);
    let folder = scratch.path("job");
    search.stopped(&folder);
    let early = fs::read(folder.join("state")).expect("a state");
    let rows = fs::metadata(folder.join("rows.tsv")).expect("rows").len();
    // Another leg, by which there are more rows.
    let child = start(&search.further(&folder));
    until_rows(&folder, rows);
    signal(&child, SIGTERM);
    end(child);
    let late = fs::read(folder.join("state")).expect("a state");
    assert!(late != early, "a leg was saved");
    // The other way round rows are missing.
    let short = scratch.path("short");
    copy(&folder, &short);
    let all = fs::read(short.join("rows.tsv")).expect("rows");
    fs::write(short.join("rows.tsv"), &all[..rows as usize]).expect("rows");
    let said = refused(&short, "a later state with earlier rows");
    assert!(said.contains("rows are missing"), "{said}");
    fs::write(folder.join("state"), early).expect("a state");
    whole(run(&search.further(&folder)), &folder, &search.table());
}
