//! Jobs of the version before, whose state has layout 1: they are read, gone on
//! with, and saved in the layout of today.

mod common;

use common::jobs::{files, same, whole, HEADER, LOCK, MIDDLE};
use common::{run, word, Scratch};
use std::fs;
use std::path::{Path, PathBuf};

const SEQUENCES: &str = ">a\nACGTACGT\n>b\nACGGT\n";
const ROWS: &str = "AC[0,2]G\t2\t4\nAC[0,2]T\t2\t3\nCG[0,2]T\t2\t3\n";

/// A job that was just begun, as that version saved it.
const BEGUN: &str = "tulfasheq job 1
steps 0
rows 0
bytes 26
table 0967305524d65fe1
sequences 781eb3e8bb52a742
saved 01040200020003000d00000000000000020102000000000000000000000000000202010000000200000000000000000003010000000000000000000000000000
sum e01b408a732a00e8
";

/// The same when it had ended.
const ENDED: &str = "tulfasheq job 1
steps 32
rows 3
bytes 89
table fe2a84f35fc41420
sequences 781eb3e8bb52a742
saved 01040200020003000d00000000000000020102000000000000000000000000000202010000000200000000000000000003000000000000000000000000000000
sum eeb41c05b721287e
";

/// The sum of that version: FNV-1a.
fn sum(bytes: &[u8]) -> String {
    let step = |sum: u64, byte: &u8| (sum ^ u64::from(*byte)).wrapping_mul(0x0000_0100_0000_01b3);
    format!("{:016x}", bytes.iter().fold(0xcbf2_9ce4_8422_2325, step))
}

/// A folder with such a state and this table.
fn job(scratch: &Scratch, state: &str, rows: &str) -> PathBuf {
    let folder = scratch.path("job");
    fs::create_dir(&folder).expect("a new folder");
    fs::write(folder.join("sequences.fa"), SEQUENCES).expect("sequences");
    fs::write(folder.join("rows.tsv"), rows).expect("rows");
    fs::write(folder.join("state"), state).expect("a state");
    fs::write(folder.join("lock"), LOCK).expect("a lock");
    folder
}

fn layout(folder: &Path) -> String {
    let text = fs::read_to_string(folder.join("state")).expect("a state");
    text.lines().next().expect("a line").to_string()
}

#[test]
fn a_job_that_was_begun_goes_on_in_the_new_layout() {
    let scratch = Scratch::new();
    let folder = job(&scratch, BEGUN, HEADER);
    let before = files(&folder);
    let status = String::from_utf8(run(&["status", word(&folder)]).printed()).expect("text");
    assert!(status.contains("state\tstopped\n"), "{status}");
    assert!(status.contains("time\tunknown\n"), "{status}");
    assert!(files(&folder) == before, "status changed the folder");
    let file = scratch.file("a.fa", SEQUENCES);
    let expected = run(&["search", "NN[0,2]N", "2", word(&file)]).printed();
    assert!(String::from_utf8_lossy(&expected).contains(ROWS));
    let ran = run(&["resume", word(&folder)]);
    assert!(ran.err.ends_with(" s in this run\n"), "{}", ran.err);
    whole(ran, &folder, &expected);
    assert_eq!(layout(&folder), "tulfasheq job 2");
    let status = String::from_utf8(run(&["status", word(&folder)]).printed()).expect("text");
    assert!(status.contains("time\tunknown\n"), "{status}");
    whole(run(&["resume", word(&folder)]), &folder, &expected);
}

#[test]
fn a_job_that_had_ended_is_read_as_it_is() {
    let scratch = Scratch::new();
    let table = format!("{HEADER}{ROWS}# end: steps 32, rows 3\n");
    let folder = job(&scratch, ENDED, &table);
    let before = files(&folder);
    let printed = run(&["resume", word(&folder)]).printed();
    same(&printed, table.as_bytes(), "what was printed");
    let places = run(&["places", "--job", word(&folder)]).printed();
    // Ten occurrences under a header.
    assert_eq!(places.iter().filter(|byte| **byte == b'\n').count(), 11);
    assert!(files(&folder) == before, "the folder was changed");
}

#[test]
fn a_damaged_job_is_refused() {
    let table = format!("{HEADER}{ROWS}# end: steps 32, rows 3\n");
    for name in ["sequences.fa", "rows.tsv", "state"] {
        let scratch = Scratch::new();
        let folder = job(&scratch, ENDED, &table);
        let bytes = fs::read(folder.join(name)).expect("a file");
        for at in 0..bytes.len() {
            let mut changed = bytes.clone();
            changed[at] ^= 1 << (at % 8);
            fs::write(folder.join(name), &changed).expect("a file");
            let said = run(&["status", word(&folder)]).said(7);
            assert!(said.contains(name), "{said}");
        }
    }
}

#[test]
fn a_job_that_was_stopped_on_its_way_goes_on() {
    let scratch = Scratch::new();
    let search = MIDDLE.over(&scratch);
    let folder = scratch.path("job");
    search.stopped(&folder);
    // As the version before had saved it.
    let state = fs::read_to_string(folder.join("state")).expect("a state");
    let mut lines = String::new();
    for line in state.lines() {
        let (name, value) = line.split_once(' ').expect("a name and a value");
        let file = |name: &str| fs::read(folder.join(name)).expect("a file");
        let value = match name {
            "tulfasheq" => "job 1".to_string(),
            "table" => sum(&file("rows.tsv")),
            "sequences" => sum(&file("sequences.fa")),
            "time" => continue,
            "sum" => sum(lines.as_bytes()),
            _ => value.to_string(),
        };
        lines.extend([name, " ", &value, "\n"]);
    }
    fs::write(folder.join("state"), &lines).expect("a state");
    whole(run(&search.further(&folder)), &folder, &search.table());
    assert_eq!(layout(&folder), "tulfasheq job 2");
}
