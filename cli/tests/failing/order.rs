//! In which order a job's files come to the disk.

use crate::common::jobs::SHORT;
use crate::common::{word, Scratch};
use crate::faults::Faults;

#[test]
fn a_leg_is_on_the_disk_before_its_state_is_and_the_state_before_the_next_leg() {
    let scratch = Scratch::new();
    let faults = Faults::new(&scratch);
    let folder = scratch.path("job");
    let search = SHORT.over(&scratch);
    let (ran, told) = faults.run(&search.in_job(&folder), 0, "tell");
    ran.printed();
    let calls: Vec<String> = told
        .iter()
        .filter(|hit| ["write", "fsync", "rename", "mkdir"].contains(&hit.call.as_str()))
        .map(|hit| {
            let inside = hit.file.strip_prefix(word(&folder));
            format!("{} {}", hit.call, inside.unwrap_or("outside"))
        })
        .collect();
    let begin = [
        "mkdir ",
        "fsync outside",
        "write /lock",
        "fsync /lock",
        "write /sequences.fa",
        "fsync /sequences.fa",
        "write /rows.tsv",
        "fsync /rows.tsv",
        "fsync ",
        "write /state.new",
        "fsync /state.new",
        "rename /state",
        "fsync ",
    ];
    let leg = [
        "write /rows.tsv",
        "fsync /rows.tsv",
        "write /state.new",
        "fsync /state.new",
        "rename /state",
        "fsync ",
    ];
    assert_eq!(calls[..begin.len()], begin);
    let mut rest = &calls[begin.len()..];
    let mut legs = 0;
    while !rest.is_empty() {
        // One that brought no rows has only a state.
        let calls = if rest[0] == leg[0] {
            &leg[..]
        } else {
            &leg[2..]
        };
        assert_eq!(rest[..calls.len().min(rest.len())], *calls);
        rest = &rest[calls.len()..];
        legs += u32::from(calls.len() == leg.len());
    }
    assert!(legs > 2, "more legs with rows");
}
