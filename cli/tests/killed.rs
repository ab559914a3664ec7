//! A job that is stopped again and again: by SIGKILL, by signals that ask, and
//! with its folder copied elsewhere on the way. Its table is that of a search
//! that nothing stopped, byte for byte, the steps in the last line too.

mod common;

use common::jobs::{
    copy, end, signal, start, start_as, state_value, until_rows, whole, Search, HEADER, LONG,
    MIDDLE, SIGHUP, SIGINT, SIGTERM,
};
use common::{program, run, word, Ran, Random, Scratch};
use std::fs;
use std::path::Path;
use std::process::Command;
use std::sync::OnceLock;
use std::thread;
use std::time::{Duration, Instant};

/// The table that nothing stopped, and how long it took.
fn expected() -> &'static (Vec<u8>, Duration) {
    static EXPECTED: OnceLock<(Vec<u8>, Duration)> = OnceLock::new();
    EXPECTED.get_or_init(|| {
        let scratch = Scratch::new();
        let search = LONG.over(&scratch);
        let begun = Instant::now();
        (search.table(), begun.elapsed())
    })
}

/// How often each job is stopped.
const STOPS: u64 = 56;

/// Whether a job has come half of its way. From there on it is stopped early,
/// so that on no machine it is over before its stops are.
fn half_done(folder: &Path) -> bool {
    let table = String::from_utf8_lossy(&expected().0);
    let last = table.lines().last().unwrap_or("");
    let steps = last
        .strip_prefix("# end: steps ")
        .and_then(|counts| counts.split(',').next()?.parse::<u64>().ok());
    let steps = steps.expect("the last line tells the steps");
    state_value(folder, "steps") > Some(steps / 2)
}

/// When a program is stopped.
#[derive(Clone, Copy)]
enum Moment {
    /// So long after its start, wherever it is then.
    After(Duration),
    /// So long after a save. The first ones come at once, one after another;
    /// the fourth when a quarter of a second has passed.
    Saved(u64, Duration),
    /// When it has written rows and not saved them yet, if that is seen before
    /// two saves.
    Rows,
}

/// A moment while the program starts, mostly before it has read the folder.
fn early(random: &mut Random) -> Moment {
    Moment::After(Duration::from_micros(random.below(1_000)))
}

/// A moment that is blind: mostly too soon for more than the first saves. It
/// is told in parts of the whole search's time, so that it is one on a fast
/// machine too.
fn blind(random: &mut Random, stop: u64) -> Moment {
    let parts = if stop % 5 == 4 { 24 } else { 75 };
    let most = expected().1.as_micros() as u64 / parts;
    Moment::After(Duration::from_micros(random.below(most)))
}

/// A moment soon after a save: mostly the first one, and at every eighth stop
/// one of those that come every quarter of a second.
fn saved(random: &mut Random, stop: u64) -> Moment {
    let saves = if stop % 8 == 1 { 4 } else { 1 };
    Moment::Saved(saves, Duration::from_micros(random.below(15_000)))
}

/// The bytes of rows.tsv behind what the state counts.
fn behind(folder: &Path) -> u64 {
    let bytes = fs::metadata(folder.join("rows.tsv")).map_or(0, |found| found.len());
    bytes.saturating_sub(state_value(folder, "bytes").unwrap_or(bytes))
}

/// A job on its way, and what its stops did.
struct Stops<'a> {
    search: &'a Search,
    stops: u64,
    /// Stops before the first save of that start.
    nothing_saved: u64,
    /// Stops with rows in the table that were not saved.
    rows_behind: u64,
}

impl Stops<'_> {
    fn new(search: &Search) -> Stops<'_> {
        Stops {
            search,
            stops: 0,
            nothing_saved: 0,
            rows_behind: 0,
        }
    }

    /// Starts the program, and stops it by a signal, or by SIGKILL.
    fn stop(&mut self, folder: &Path, moment: Moment, by: Option<i32>) -> Ran {
        let before = state_value(folder, "steps");
        let mut child = start(&self.search.further(folder));
        await_moment(folder, before, moment);
        match by {
            Some(number) => signal(&child, number),
            None => child.kill().expect("it is killed"),
        }
        let ran = end(child);
        assert_ne!(ran.status, Some(0), "the job ended before all stops");
        self.stops += 1;
        let moved = state_value(folder, "steps") > before.max(Some(0));
        let behind = behind(folder);
        if ran.status == Some(5) {
            assert!(moved, "what was done before the stop is saved");
            assert_eq!(behind, 0, "all rows are saved");
        }
        self.nothing_saved += u64::from(!moved);
        self.rows_behind += u64::from(behind > 0);
        ran
    }

    /// Lets the job come to its end.
    fn finish(self, folder: &Path, by: &str) {
        println!(
            "{} stops by {by}: {} before a save, {} with unsaved rows in the table; {:?} steps were saved",
            self.stops,
            self.nothing_saved,
            self.rows_behind,
            state_value(folder, "steps")
        );
        let ran = run(&self.search.further(folder));
        whole(ran, folder, &expected().0);
    }
}

/// Waits until a program that has just been started is to be stopped.
fn await_moment(folder: &Path, before: Option<u64>, moment: Moment) {
    let begun = Instant::now();
    let mut last = before.max(Some(0));
    let mut saves = 0;
    loop {
        assert!(
            begun.elapsed() < Duration::from_secs(60),
            "nothing is saved"
        );
        let steps = state_value(folder, "steps");
        saves += u64::from(steps > last);
        last = steps.max(last);
        match moment {
            Moment::After(time) => return thread::sleep(time),
            Moment::Saved(wanted, time) if saves >= wanted => return thread::sleep(time),
            Moment::Rows if saves > 1 || (saves > 0 && behind(folder) > 0) => return,
            _ => thread::sleep(Duration::from_micros(100)),
        }
    }
}

/// That `status` reads a job that was stopped, if it was saved at all.
fn look(folder: &Path) {
    if folder.join("state").exists() {
        let printed = run(&["status", word(folder)]).printed();
        let text = String::from_utf8(printed).expect("text");
        assert!(text.starts_with("state\tstopped\n"), "{text}");
    }
}

/// That a program which was asked to stop said how to go on, if the signal did
/// not come before it listened.
fn asked(ran: Ran, folder: &Path) -> bool {
    if ran.status.is_none() {
        return false;
    }
    let said = ran.said(5);
    let how = format!("tulfasheq resume {} goes on with it", word(folder));
    assert!(said.contains(&how), "{said}");
    true
}

#[test]
fn killed_at_any_moment_no_row_is_lost_or_listed_twice() {
    let scratch = Scratch::new();
    let search = LONG.over(&scratch);
    let folder = scratch.path("job");
    let mut random = Random::new(11);
    let mut stops = Stops::new(&search);
    for stop in 0..STOPS {
        let moment = match stop % 14 {
            _ if half_done(&folder) => early(&mut random),
            13 => Moment::Rows,
            at if at % 2 == 0 => blind(&mut random, stop),
            _ => saved(&mut random, stop),
        };
        let ran = stops.stop(&folder, moment, None);
        assert_eq!(ran.status, None, "{}", ran.err);
        look(&folder);
    }
    let after = stops.stops - stops.nothing_saved;
    assert!(after >= 8, "{after} kills after a save");
    stops.finish(&folder, "SIGKILL");
}

#[test]
fn asked_to_stop_it_is_saved_and_says_how_to_go_on() {
    let scratch = Scratch::new();
    let search = LONG.over(&scratch);
    let folder = scratch.path("job");
    let mut random = Random::new(12);
    let mut stops = Stops::new(&search);
    let mut kept = 0;
    for stop in 0..STOPS {
        let moment = match stop % 2 {
            _ if half_done(&folder) => early(&mut random),
            0 => blind(&mut random, stop),
            _ => saved(&mut random, stop),
        };
        let number = [SIGTERM, SIGINT, SIGHUP][stop as usize % 3];
        let ran = stops.stop(&folder, moment, Some(number));
        kept += u64::from(asked(ran, &folder));
        look(&folder);
    }
    assert!(kept >= 4, "few signals came while the program listened");
    println!("{kept} stops were saved");
    stops.finish(&folder, "SIGTERM, SIGINT and SIGHUP");
}

#[test]
fn a_folder_copied_elsewhere_between_two_stops_goes_on_there() {
    let scratch = Scratch::new();
    let search = LONG.over(&scratch);
    let mut folder = scratch.path("job-0");
    let mut random = Random::new(13);
    let mut stops = Stops::new(&search);
    for stop in 0..STOPS {
        let moment = match stop % 4 {
            _ if half_done(&folder) => early(&mut random),
            1 | 2 => saved(&mut random, stop),
            _ => blind(&mut random, stop),
        };
        let by = (stop % 2 == 0).then_some(SIGTERM);
        let ran = stops.stop(&folder, moment, by);
        if by.is_some() {
            asked(ran, &folder);
        }
        if folder.exists() {
            let next = scratch.path(&format!("job-{}", stop + 1));
            copy(&folder, &next);
            fs::remove_dir_all(&folder).expect("the old folder goes");
            folder = next;
        }
        look(&folder);
    }
    stops.finish(&folder, "SIGTERM and SIGKILL, and copied each time");
}

#[test]
fn a_signal_that_was_ignored_before_stays_ignored() {
    let scratch = Scratch::new();
    let search = MIDDLE.over(&scratch);
    let folder = scratch.path("job");
    // As nohup starts a program.
    let mut command = Command::new("sh");
    command
        .args(["-c", "trap '' HUP; exec \"$0\" \"$@\""])
        .arg(program().get_program());
    let child = start_as(command, &search.in_job(&folder));
    until_rows(&folder, HEADER.len() as u64);
    signal(&child, SIGHUP);
    whole(end(child), &folder, &search.table());
}
