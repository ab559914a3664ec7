//! The folder of a table that is moved, removed or no longer led to while the
//! table is written: it is told where the table is, and what stands in its
//! place is another's.

mod common;

use common::jobs::{end, signal, start, Started, MIDDLE, SIGCONT, SIGSTOP};
use common::{parts, word, Scratch};
use std::fs;
use std::os::unix::fs::symlink;
use std::path::Path;
use std::thread;
use std::time::{Duration, Instant};

const OTHER: &str = "another's table\n";

/// A search that writes its table into a folder, held while it does.
fn held(words: &[&str], folder: &Path) -> Started {
    for _ in 0..20 {
        let child = start(words);
        let begun = Instant::now();
        while parts(folder).is_empty() {
            assert!(begun.elapsed() < Duration::from_secs(60), "no part comes");
            thread::sleep(Duration::from_millis(1));
        }
        // Not waited for yet, so it can be held even where it is over.
        signal(&child, SIGSTOP);
        if !parts(folder).is_empty() {
            return child;
        }
        signal(&child, SIGCONT);
        end(child);
    }
    panic!("the search ends too soon to be held");
}

#[test]
fn a_table_whose_folder_is_moved_is_whole_where_the_folder_is_now() {
    let scratch = Scratch::new();
    let search = MIDDLE.over(&scratch);
    let expected = search.table();
    let [place, new, link] = ["place", "new", "link"].map(|name| scratch.path(name));
    fs::create_dir(&place).expect("a folder");
    // By its path, by a link to the folder, and by one to the file.
    symlink(&place, &link).expect("a link");
    symlink(place.join("table.tsv"), scratch.path("table")).expect("a link");
    for out in ["place/table.tsv", "link/table.tsv", "table"] {
        let out = scratch.path(out);
        let words = [&search.words()[..], &["--out", word(&out)]].concat();
        let child = held(&words, &place);
        fs::rename(&place, &new).expect("it is moved");
        fs::create_dir(&place).expect("another folder");
        fs::write(place.join("table.tsv"), OTHER).expect("another's table");
        signal(&child, SIGCONT);
        let said = end(child).said(4);
        let told = format!(
            "what was written is whole, and is {}/table.tsv now",
            word(&new)
        );
        assert!(said.contains(&told), "{said}");
        assert!(
            said.contains(&format!("{} no longer leads", word(&out))),
            "{said}"
        );
        assert!(fs::read(new.join("table.tsv")).expect("the table") == expected);
        assert_eq!(fs::read(&out).expect("another's"), OTHER.as_bytes());
        assert!(parts(&place).is_empty() && parts(&new).is_empty());
        fs::remove_dir_all(&new).expect("it goes");
    }
}

#[test]
fn a_link_that_leads_elsewhere_meanwhile_is_told() {
    let scratch = Scratch::new();
    let search = MIDDLE.over(&scratch);
    let [place, other, link] = ["place", "other", "link"].map(|name| scratch.path(name));
    fs::create_dir(&place).expect("a folder");
    fs::create_dir(&other).expect("a folder");
    symlink(&place, &link).expect("a link");
    let out = link.join("table.tsv");
    let words = [&search.words()[..], &["--out", word(&out)]].concat();
    let child = held(&words, &place);
    fs::remove_file(&link).expect("the link goes");
    symlink(&other, &link).expect("another");
    signal(&child, SIGCONT);
    let said = end(child).said(4);
    let told = format!("is whole, and is {}/table.tsv now", word(&place));
    assert!(said.contains(&told), "{said}");
    assert!(!out.exists());
}

#[test]
fn a_table_whose_folder_is_removed_is_not_said_to_be_as_it_was() {
    let scratch = Scratch::new();
    let search = MIDDLE.over(&scratch);
    let place = scratch.path("place");
    fs::create_dir(&place).expect("a folder");
    let out = scratch.file("place/table.tsv", "an older table\n");
    let words = [&search.words()[..], &["--out", word(&out)]].concat();
    let child = held(&words, &place);
    fs::remove_dir_all(&place).expect("it goes");
    signal(&child, SIGCONT);
    let said = end(child).said(4);
    assert!(said.contains(word(&out)), "{said}");
    assert!(said.contains("removed"), "{said}");
    assert!(!said.contains("as it was"), "{said}");
    assert!(!place.exists());
}
