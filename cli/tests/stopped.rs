//! A stop is heeded soon, whatever the search is at, and told: which signal
//! came, that the job is saved, and a command that goes on with it.

mod common;

use common::jobs::{
    end, signal, start, start_as, state_value, until_rows, whole, Started, HEADER, LONG, MIDDLE,
    SHORT, SIGTERM,
};
use common::{fasta, program, run, word, Ran, Random, Scratch};
use std::fs;
use std::io::Read;
use std::mem::MaybeUninit;
use std::path::{Path, PathBuf};
use std::process::{Child, Command};
use std::thread;
use std::time::{Duration, Instant};

/// A search of a cheap stretch before a dear one: what begins with A stands
/// only in a short sequence, and all else everywhere in a long one. A candidate
/// there takes three hundred times as long.
fn cheap_and_dear(scratch: &Scratch) -> PathBuf {
    let mut random = Random::new(35);
    let short = random.letters(190);
    let long = (0..65_300)
        .map(|_| b"CGT"[random.below(3) as usize])
        .collect();
    scratch.file("cheap-and-dear.fa", fasta(&[short, long]))
}

/// The words of that search.
fn words<'a>(file: &'a Path, folder: &'a Path) -> [&'a str; 6] {
    let template = "NN[0,40]NN[0,40]NN[0,40]NN[0,40]NN[200,255]NNN";
    ["search", template, "1", word(file), "--job", word(folder)]
}

// The C library's: what a child took is answered in pairs of seconds and
// millionths of them, the user's first and then the system's.
extern "C" {
    fn wait4(process: i32, status: *mut i32, options: i32, taken: *mut [i64; 18]) -> i32;
}

/// The processor time that a program has taken so far.
fn taken(child: &Child) -> Duration {
    let stat = fs::read_to_string(format!("/proc/{}/stat", child.id())).expect("its numbers");
    let behind = stat.rsplit(')').next().expect("what is behind its name");
    // What follows the name is the third; the times are 14 and 15, in
    // hundredths of a second.
    let ticks = behind.split_whitespace().skip(11).take(2);
    let ticks: u64 = ticks.map(|n| n.parse::<u64>().expect("a time")).sum();
    Duration::from_millis(10 * ticks)
}

/// Waits for a program's end: its status, what it said, and the processor time
/// that it took in all.
fn ended(mut child: Started) -> (i32, String, Duration) {
    let mut said = String::new();
    let mut error = child.stderr.take().expect("a pipe");
    error.read_to_string(&mut said).expect("text");
    let process = i32::try_from(child.id()).expect("the number of a process");
    let mut status = 0;
    let mut taken = MaybeUninit::uninit();
    // SAFETY: both are written to places of their own, the second of the size
    // that it has on Linux. It is the only one that waits for the process.
    let taken = unsafe {
        assert_eq!(wait4(process, &mut status, 0, taken.as_mut_ptr()), process);
        taken.assume_init()
    };
    let seconds = u64::try_from(taken[0] + taken[2]).expect("a time");
    let micros = u64::try_from(taken[1] + taken[3]).expect("a time");
    let time = Duration::from_secs(seconds) + Duration::from_micros(micros);
    assert_eq!(status & 0x7f, 0, "ended by a signal: {said}");
    (status >> 8, said, time)
}

#[test]
fn a_stop_is_heeded_in_a_cheap_stretch_at_its_end_and_in_a_dear_one() {
    let scratch = Scratch::new();
    let file = cheap_and_dear(&scratch);
    let mut random = Random::new(36);
    for i in 0..10 {
        let folder = scratch.path(&format!("job-{i}"));
        let child = start(&words(&file, &folder));
        // The cheap stretch takes about a tenth of a second.
        let moment = Duration::from_millis(10 * i + random.below(80) + 150 * (i / 8));
        let begun = Instant::now();
        while taken(&child) < moment || state_value(&folder, "steps").is_none() {
            assert!(begun.elapsed() < Duration::from_secs(120), "it runs");
            thread::sleep(Duration::from_millis(1));
        }
        let before = taken(&child);
        signal(&child, SIGTERM);
        let (status, said, all) = ended(child);
        assert_eq!(status, 5, "{said}");
        let steps = state_value(&folder, "steps").expect("steps");
        let heeded = all.saturating_sub(before);
        println!("at {before:?}, {steps} steps: heeded after {heeded:?}");
        assert!(
            heeded < Duration::from_millis(500),
            "{before:?}: {heeded:?}"
        );
        assert!(steps > 0, "it got on");
    }
}

#[test]
fn every_signal_that_asks_is_told_by_its_name_and_saves() {
    let scratch = Scratch::new();
    let search = LONG.over(&scratch);
    for (number, name) in [
        (1, "SIGHUP"),
        (2, "SIGINT"),
        (10, "SIGUSR1"),
        (12, "SIGUSR2"),
        (15, "SIGTERM"),
        (24, "SIGXCPU"),
    ] {
        let folder = scratch.path(name);
        let mut words = search.in_job(&folder);
        words.push("--quiet");
        let child = start(&words);
        until_rows(&folder, HEADER.len() as u64);
        signal(&child, number);
        let said = end(child).said(5);
        let lines: Vec<&str> = said.lines().collect();
        assert_eq!(lines[0], format!("tulfasheq: {name}: stopping, and saving"));
        let saved = "tulfasheq: stopped, and saved: ";
        assert!(lines[1].starts_with(saved), "{said}");
        assert_eq!(lines.len(), 2, "{said}");
    }
}

/// The command that goes on, as it was told.
fn told(said: &str) -> &str {
    said.lines()
        .find_map(|line| {
            line.strip_prefix("tulfasheq: stopped, and saved: ")?
                .strip_suffix(" goes on with it")
        })
        .expect("a command")
}

#[test]
fn the_command_that_goes_on_can_be_pasted() {
    let scratch = Scratch::new();
    let search = MIDDLE.over(&scratch);
    let expected = search.table();
    let here = scratch.path("");
    std::os::unix::fs::symlink(program().get_program(), here.join("it's me")).expect("a link");
    std::os::unix::fs::symlink(program().get_program(), here.join("plain")).expect("a link");
    // As it is called itself, and as a script is called that starts it.
    for (i, (called, script)) in [("./it's me", None), ("plain", Some("./plain"))]
        .into_iter()
        .enumerate()
    {
        let (folder, out) = (format!("my job {i}"), format!("out $HOME {i}"));
        let mut command = Command::new(here.join(called));
        command.current_dir(&here);
        std::os::unix::process::CommandExt::arg0(&mut command, called);
        if let Some(script) = script {
            command.env("TULFASHEQ_CALLED", script);
        }
        let mut words = search.words();
        words.extend(["--job", &folder, "--out", &out]);
        let child = start_as(command, &words);
        until_rows(&here.join(&folder), HEADER.len() as u64);
        signal(&child, SIGTERM);
        let said = end(child).said(5);
        let pasted = Command::new("sh")
            .args(["-c", told(&said)])
            .current_dir(&here)
            .output()
            .expect("a shell");
        let error = String::from_utf8_lossy(&pasted.stderr);
        assert_eq!(pasted.status.code(), Some(0), "{said}: {error}");
        let table = fs::read(here.join(&out)).expect("the table");
        assert!(table == expected, "{said}");
    }
}

/// The lines of a run that went well.
fn lines(ran: Ran) -> Vec<String> {
    assert_eq!(ran.status, Some(0), "{}", ran.err);
    ran.err.lines().map(str::to_string).collect()
}

#[test]
fn a_search_tells_what_it_searches_and_what_there_was_of_it() {
    let scratch = Scratch::new();
    let search = SHORT.over(&scratch);
    let folder = scratch.path("job");
    let opening = "tulfasheq: 16 sequences, 1,600 letters, quorum 2";
    for words in [search.words(), search.in_job(&folder)] {
        let ran = run(&words);
        let table = String::from_utf8(ran.out.clone()).expect("text");
        let last = table.lines().last().expect("a last line");
        let mut counts = last.split([' ', ',']).filter_map(|n| n.parse::<u64>().ok());
        let (steps, rows) = (counts.next(), counts.next());
        let said = lines(ran);
        assert_eq!(said[0], opening);
        let closing = said[1].replace(',', "");
        let (rows, steps) = (rows.unwrap(), steps.unwrap());
        let told = format!("tulfasheq: {rows} rows {steps} steps ");
        let time = closing.strip_prefix(&told).expect("rows and steps");
        let is_time = |c: char| c.is_ascii_digit() || ".: s".contains(c);
        assert!(!time.is_empty() && time.chars().all(is_time), "{said:?}");
        assert_eq!(said.len(), 2);
    }
    // One that has ended is only written out.
    assert!(lines(run(&["resume", word(&folder)])).is_empty());
    let mut words = search.words();
    words.push("--quiet");
    assert!(lines(run(&words)).is_empty());
}

#[test]
fn a_job_that_goes_on_tells_its_rows_so_far() {
    let scratch = Scratch::new();
    let search = MIDDLE.over(&scratch);
    let folder = scratch.path("job");
    search.stopped(&folder);
    let rows = state_value(&folder, "rows").expect("rows");
    let ran = run(&search.further(&folder));
    let said: Vec<String> = ran.err.lines().map(|line| line.replace(',', "")).collect();
    let opening = format!("tulfasheq: 64 sequences 19200 letters quorum 62 {rows} row");
    assert!(said[0].starts_with(&opening), "{said:?}");
    assert!(said[0].ends_with(" so far"), "{said:?}");
    whole(ran, &folder, &search.table());
}

/// What begins with A, C or G and then some stands in a short sequence alone,
/// and what is of G and T everywhere in a long one: cheap stretches and dear
/// ones come in turns. Gaps are as wide as can be.
#[test]
fn saves_come_often_also_where_cheap_stretches_end() {
    let scratch = Scratch::new();
    let mut random = Random::new(37);
    let mut of = |letters: &[u8], count: u64| -> Vec<u8> {
        let letter = |_| letters[random.below(letters.len() as u64) as usize];
        (0..count).map(letter).collect()
    };
    let sequences = [of(b"ACG", 400), of(b"GT", 65_000)];
    let file = scratch.file("in-turns.fa", fasta(&sequences));
    let folder = scratch.path("job");
    let template = "NNNN[0,255]NN[0,255]NN[0,255]NN[0,255]NN[0,255]N";
    let child = start(&["search", template, "1", word(&file), "--job", word(&folder)]);
    let (mut saves, mut steps, mut longest) = (0, None, Duration::ZERO);
    let mut last = Duration::ZERO;
    while last < Duration::from_secs(3) {
        thread::sleep(Duration::from_millis(2));
        let (now, found) = (taken(&child), state_value(&folder, "steps"));
        longest = longest.max(now.saturating_sub(last));
        if found != steps {
            (saves, steps, last) = (saves + 1, found, now);
        }
        assert!(
            longest < Duration::from_secs(1),
            "not saved for {longest:?}"
        );
    }
    signal(&child, SIGTERM);
    let (status, said, _) = ended(child);
    assert_eq!(status, 5, "{said}");
    println!("{saves} saves, at most {longest:?} of processor time between two");
    assert!(saves >= 6, "{saves} saves");
}
