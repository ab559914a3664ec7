//! How far a list is, on standard error where that is a terminal.

use crate::common::terminal::terminal;
use crate::common::{program, word, Scratch};
use std::io::Read;
use std::process::Stdio;

/// What a person sees of the places of a motif, or of the three of a list; also
/// the rows, or what goes to standard error alone.
fn seen(listed: bool, rows: bool, more: &[&str]) -> Option<String> {
    let (mut person, terminal) = terminal()?;
    let scratch = Scratch::new();
    let file = scratch.file("file.fa", b">a\nACGTACGTA\n>b\nACGGTA\n");
    let list = scratch.file("list", "motif\nAC\nGT\nTT\n# end: steps 1, rows 3\n");
    let words = match listed {
        true => vec!["places", "NN", word(&file), "--list", word(&list)],
        false => vec!["places", "NN", "AC", word(&file)],
    };
    let out = match rows {
        true => terminal.try_clone().expect("a second handle").into(),
        false => Stdio::null(),
    };
    let mut child = program()
        .args([&words[..], more].concat())
        .stdin(Stdio::null())
        .stdout(out)
        .stderr(terminal)
        .spawn()
        .expect("the program starts");
    let reader = std::thread::spawn(move || {
        let mut bytes = Vec::new();
        // Once the program's side is closed, to read fails.
        let _ = person.read_to_end(&mut bytes);
        bytes
    });
    assert!(child.wait().expect("it ends").success());
    let bytes = reader.join().expect("it was read");
    Some(String::from_utf8(bytes).expect("text"))
}

#[test]
fn a_terminal_shows_how_many_motifs_are_done() {
    let Some(text) = seen(true, false, &[]) else {
        return;
    };
    assert!(text.starts_with("\r0 of 3 motifs, 0:0"), "{text:?}");
    // The line is gone at the end, and the next tells what was written.
    assert!(text.ends_with(" \r6 rows of 3 motifs\r\n"), "{text:?}");
}

#[test]
fn nothing_is_shown_of_one_motif_or_to_who_asked_for_quiet_or_sees_the_rows() {
    for (listed, rows, more) in [
        (false, false, &[][..]),
        (true, false, &["--quiet"]),
        (true, true, &[]),
    ] {
        let text = seen(listed, rows, more).unwrap_or_default();
        assert!(!text.contains("of"), "{text:?}");
        assert!(rows || text.is_empty(), "{text:?}");
    }
}
