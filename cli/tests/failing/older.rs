//! A table that goes over an older one, where something is refused at every
//! call.

use crate::common::{parts, word, Scratch};
use crate::faults::{Faults, Hit, OLDER};
use std::fs::{self, Permissions};
use std::os::unix::fs::{MetadataExt, PermissionsExt};

/// A search whose table goes over an older one.
fn over_older(scratch: &Scratch, mode: u32) -> [String; 6] {
    let file = scratch.file("a.fa", ">a\nACGTACGT\n>b\nACGGT\n");
    let out = scratch.file("table.tsv", OLDER);
    fs::set_permissions(&out, Permissions::from_mode(mode)).expect("a mode");
    let words = ["search", "NN", "1", word(&file), "--out", word(&out)];
    words.map(str::to_string)
}

#[test]
fn what_the_older_ones_group_might_do_another_group_may_not() {
    let scratch = Scratch::new();
    let faults = Faults::new(&scratch);
    for (before, after) in [
        (0o660, 0o600),
        (0o664, 0o644),
        (0o640, 0o600),
        (0o606, 0o666),
    ] {
        let words = over_older(&scratch, before);
        let (ran, hits) = faults.run(&words, 0, "owners");
        assert!(ran.printed().is_empty());
        assert_eq!(hits.len(), 2, "{hits:?}");
        let found = fs::metadata(scratch.path("table.tsv")).expect("the table");
        assert!(found.len() > OLDER.len() as u64);
        assert_eq!(found.mode() & 0o7777, after, "{before:o}");
    }
}

#[test]
fn without_locks_the_file_that_another_program_writes_is_left_alone() {
    let scratch = Scratch::new();
    let faults = Faults::new(&scratch);
    let words = over_older(&scratch, 0o644);
    let expected = faults.well(&words[..4]).printed();
    let out = scratch.path("table.tsv");
    let part = scratch.path("table.tsv.tulfasheq-part");
    for others in [None, Some("another's")] {
        fs::write(&out, OLDER).expect("an older one");
        if let Some(others) = others {
            fs::write(&part, others).expect("another's");
        }
        let (ran, hits) = faults.run(&words, 0, "locks");
        assert!(ran.printed().is_empty());
        assert!(fs::read(&out).expect("the table") == expected);
        // What was tried by its common name, and then by one of its own.
        let ending = |hit: &Hit| hit.file.ends_with("table.tsv.tulfasheq-part");
        assert_eq!(
            hits.iter().filter(|hit| !ending(hit)).count(),
            1,
            "{hits:?}"
        );
        let left = fs::read_to_string(&part).ok();
        assert_eq!(left.as_deref(), others);
        assert_eq!(
            parts(&scratch.path("")).len(),
            usize::from(others.is_some())
        );
    }
}
