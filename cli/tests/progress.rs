//! How far a search is, on standard error where that is a terminal.

mod common;

use common::jobs::{signal, until_rows, HEADER, LONG, MIDDLE, SIGTERM};
use common::terminal::terminal;
use common::{program, word, Scratch};
use std::io::Read;
use std::path::Path;
use std::process::{Child, Stdio};

/// Runs the program with a terminal for its standard error, stops it where
/// that is asked for, and answers what a person saw.
fn seen(words: &[&str], stop: impl FnOnce(&Child)) -> Option<String> {
    let (mut person, terminal) = terminal()?;
    let child = program()
        .args(words)
        .stdin(Stdio::null())
        .stdout(Stdio::null())
        .stderr(terminal)
        .spawn();
    let mut child = child.expect("the program starts");
    let reader = std::thread::spawn(move || {
        let mut bytes = Vec::new();
        // Once the program's side is closed, to read fails.
        let _ = person.read_to_end(&mut bytes);
        bytes
    });
    stop(&child);
    child.wait().expect("it ends");
    let bytes = reader.join().expect("it was read");
    Some(String::from_utf8(bytes).expect("text"))
}

#[test]
fn a_terminal_shows_how_far_it_is() {
    let scratch = Scratch::new();
    let search = MIDDLE.over(&scratch);
    let Some(text) = seen(&search.words(), |_| {}) else {
        return;
    };
    for words in [" %, ", " rows, ", "0:00:0"] {
        assert!(text.contains(words), "{text:?}");
    }
    // No line is longer than 40 columns have room for.
    let (opening, rest) = text.split_once("\r\n").expect("what is searched");
    assert!(opening.ends_with(", quorum 62"), "{text:?}");
    let mut lines: Vec<&str> = rest.trim_end_matches("\r\n").split('\r').collect();
    let closing = lines.pop().expect("what there was of it");
    assert!(lines.iter().all(|line| line.len() < 40), "{text:?}");
    // At the end the line is gone, and another stands in its place.
    assert!(closing.starts_with("tulfasheq: "), "{text:?}");
    assert!(closing.contains(" steps, "), "{text:?}");
    let line = lines.pop();
    assert!(line.is_some_and(|line| line.trim().is_empty()), "{text:?}");
}

#[test]
fn it_is_shown_of_a_search_whose_table_goes_to_a_file() {
    let scratch = Scratch::new();
    let search = MIDDLE.over(&scratch);
    let out = scratch.path("table.tsv");
    let mut words = search.words();
    words.extend(["--out", word(&out)]);
    if let Some(text) = seen(&words, |_| {}) {
        assert!(text.contains(" %, "), "{text:?}");
    }
}

#[test]
fn quiet_shows_nothing() {
    let scratch = Scratch::new();
    let search = MIDDLE.over(&scratch);
    let mut words = search.words();
    words.push("--quiet");
    assert_eq!(seen(&words, |_| {}).unwrap_or_default(), "");
}

#[test]
fn what_is_said_at_a_stop_stands_on_a_line_of_its_own() {
    let scratch = Scratch::new();
    let search = LONG.over(&scratch);
    let folder = scratch.path("job");
    let text = seen(&search.in_job(&folder), |child| {
        until_rows(&folder, HEADER.len() as u64);
        signal(child, SIGTERM);
    });
    let Some(text) = text else {
        return;
    };
    let said = format!(
        "\rtulfasheq: SIGTERM: stopping, and saving\r\ntulfasheq: stopped, and saved: {} resume {} goes on with it\r\n",
        word(Path::new(program().get_program())),
        word(&folder)
    );
    assert!(text.ends_with(&said), "{text:?}");
}
