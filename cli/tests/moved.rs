//! A job's folder that is moved or removed while the job runs: it goes on where
//! it is, and what stands in its old place is another's.

mod common;

use common::jobs::{
    copy, end, files, same, signal, start, state_value, until_rows, whole, Search, Started, HEADER,
    MIDDLE, SHORT, SIGCONT, SIGSTOP, SIGTERM,
};
use common::{run, word, Scratch};
use std::fs;
use std::os::unix::fs::symlink;
use std::path::Path;

/// Begins a job, and moves its folder while it runs. Answers with the program,
/// which stands still.
fn moved(search: &Search, from: &Path, to: &Path) -> Started {
    for _ in 0..20 {
        let child = start(&search.in_job(from));
        until_rows(from, HEADER.len() as u64);
        signal(&child, SIGSTOP);
        // The last state has no next candidate: then it was over too soon.
        let rows = fs::read(from.join("rows.tsv")).expect("rows");
        if !String::from_utf8_lossy(&rows).contains("# end") {
            fs::rename(from, to).expect("the folder is moved");
            return child;
        }
        signal(&child, SIGCONT);
        end(child);
        fs::remove_dir_all(from).expect("the folder goes");
    }
    panic!("the search ends too soon to be moved");
}

/// Begins another job in the place of the first, which then goes on.
fn another(other: &Search, place: &Path, first: &Started) {
    whole(run(&other.in_job(place)), place, &other.table());
    signal(first, SIGCONT);
}

#[test]
fn a_job_that_is_moved_ends_where_it_is_and_leaves_another_in_its_place_alone() {
    let scratch = Scratch::new();
    let (search, other) = (MIDDLE.over(&scratch), SHORT.over(&scratch));
    let (place, new) = (scratch.path("job"), scratch.path("moved"));
    let first = moved(&search, &place, &new);
    another(&other, &place, &first);
    let before = files(&place);
    let ran = end(first);
    assert_eq!(ran.status, Some(0), "{}", ran.err);
    same(&ran.out, &search.table(), "what was printed");
    let told = format!(
        "{} no longer leads to the job's folder, which is {} now",
        word(&place),
        word(&new)
    );
    assert!(ran.err.contains(&told), "{}", ran.err);
    assert!(files(&place) == before, "the other job was changed");
    for (folder, search) in [(&new, &search), (&place, &other)] {
        whole(run(&["resume", word(folder)]), folder, &search.table());
        assert!(!folder.join("state.new").exists());
    }
}

#[test]
fn a_job_that_is_moved_and_stopped_goes_on_in_its_new_place() {
    let scratch = Scratch::new();
    let (search, other) = (MIDDLE.over(&scratch), SHORT.over(&scratch));
    let (place, new) = (scratch.path("job"), scratch.path("moved"));
    for _ in 0..20 {
        let first = moved(&search, &place, &new);
        another(&other, &place, &first);
        let before = files(&place);
        // It is the first one's still, and only there.
        let said = run(&["resume", word(&new)]);
        let busy = said.status == Some(6);
        signal(&first, SIGTERM);
        let ran = end(first);
        assert!(files(&place) == before, "the other job was changed");
        if ran.status == Some(5) {
            assert!(busy, "{}", said.err);
            assert!(ran.err.contains("no longer leads to"), "{}", ran.err);
            let resume = |folder: &Path| format!("tulfasheq resume {}", word(folder));
            assert!(ran.err.contains(&resume(&new)), "{}", ran.err);
            assert!(!ran.err.contains(&resume(&place)), "{}", ran.err);
            assert!(state_value(&new, "rows") > Some(0));
            whole(run(&["resume", word(&new)]), &new, &search.table());
            return;
        }
        // It was over before the signal came.
        assert_eq!(ran.status, Some(0), "{}", ran.err);
        for folder in [&place, &new] {
            fs::remove_dir_all(folder).expect("it goes");
        }
    }
    panic!("the search ends too soon to be stopped");
}

#[test]
fn a_job_whose_folder_is_removed_ends_and_says_so() {
    let scratch = Scratch::new();
    let (search, other) = (MIDDLE.over(&scratch), SHORT.over(&scratch));
    let (place, new) = (scratch.path("job"), scratch.path("moved"));
    let first = moved(&search, &place, &new);
    fs::remove_dir_all(&new).expect("the folder goes");
    another(&other, &place, &first);
    let before = files(&place);
    let said = end(first).said(4);
    assert!(said.contains(word(&place)), "{said}");
    assert!(said.contains("was removed while the job ran"), "{said}");
    assert!(!said.contains("resume"), "{said}");
    assert!(files(&place) == before, "the other job was changed");
}

#[test]
fn a_table_that_is_removed_while_the_job_runs_ends_it() {
    let scratch = Scratch::new();
    let search = MIDDLE.over(&scratch);
    let (place, new) = (scratch.path("job"), scratch.path("moved"));
    let first = moved(&search, &place, &new);
    fs::rename(&new, &place).expect("it is moved back");
    fs::remove_file(place.join("rows.tsv")).expect("the table goes");
    signal(&first, SIGCONT);
    let said = end(first).said(4);
    let lost = "rows.tsv: it was removed while the job ran, and its rows are lost";
    assert!(said.contains(&format!("{}/{lost}", word(&place))), "{said}");
    assert!(!said.contains("resume"), "{said}");
    assert!(!said.contains("not found"), "{said}");
    run(&["resume", word(&place)]).said(7);
}

#[test]
fn a_link_that_leads_elsewhere_meanwhile_is_told() {
    let scratch = Scratch::new();
    let (search, other) = (MIDDLE.over(&scratch), SHORT.over(&scratch));
    let [link, real, new] = ["link", "job", "new"].map(|name| scratch.path(name));
    whole(run(&other.in_job(&new)), &new, &other.table());
    let before = files(&new);
    // It is begun by its own path, and gone on with by the link.
    search.stopped(&real);
    symlink(&real, &link).expect("a link");
    let saved = state_value(&real, "bytes").expect("a number");
    let first = start(&["resume", word(&link)]);
    until_rows(&real, saved);
    signal(&first, SIGSTOP);
    fs::remove_file(&link).expect("the link goes");
    symlink(&new, &link).expect("another");
    signal(&first, SIGCONT);
    let ran = end(first);
    same(&ran.out, &search.table(), "what was printed");
    let told = format!(
        "{} no longer leads to the job's folder, which is {} now",
        word(&link),
        word(&real)
    );
    assert!(ran.err.contains(&told), "{}", ran.err);
    assert!(files(&new) == before, "the other job was changed");
}

#[test]
fn a_copy_in_the_old_place_is_a_job_of_its_own() {
    let scratch = Scratch::new();
    let search = MIDDLE.over(&scratch);
    let (place, new) = (scratch.path("job"), scratch.path("moved"));
    let first = moved(&search, &place, &new);
    copy(&new, &place);
    // Both go on, each with its own.
    let second = start(&["resume", word(&place)]);
    signal(&first, SIGCONT);
    let expected = search.table();
    whole(end(second), &place, &expected);
    same(&end(first).out, &expected, "the first one's");
    whole(run(&["resume", word(&new)]), &new, &expected);
}
