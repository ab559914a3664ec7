//! Jobs for the tests: searches that last, programs that are stopped on their
//! way, and folders that are copied and compared.

use super::{fasta, program, run, word, Ran, Random, Scratch};
use std::collections::BTreeMap;
use std::fs;
use std::ops::{Deref, DerefMut};
use std::os::unix::process::CommandExt;
use std::path::{Path, PathBuf};
use std::process::{Child, Command, Stdio};
use std::thread;
use std::time::{Duration, Instant};

/// The first line of every table.
pub const HEADER: &str = "motif\tsupport\toccurrences\n";

/// What a lock says.
pub const LOCK: &[u8] = b"tulfasheq: locked by the program that works on this job\n";

pub const SIGHUP: i32 = 1;
pub const SIGINT: i32 = 2;
pub const SIGUSR1: i32 = 10;
pub const SIGUSR2: i32 = 12;
pub const SIGTERM: i32 = 15;
pub const SIGCONT: i32 = 18;
pub const SIGSTOP: i32 = 19;
pub const SIGXCPU: i32 = 24;

/// A search over random sequences, the same in every run.
#[derive(Clone, Copy)]
pub struct Kind {
    pub seed: u64,
    pub sequences: u64,
    pub letters: u64,
    pub template: &'static str,
    pub quorum: &'static str,
}

/// Some seconds, 340,000 steps, 200,000 rows.
pub const LONG: Kind = Kind {
    seed: 1,
    sequences: 200,
    letters: 300,
    template: "NNN[0,20]NN[0,20]NN[0,20]NN",
    quorum: "160",
};

/// About a second.
pub const MIDDLE: Kind = Kind {
    seed: 2,
    sequences: 64,
    letters: 300,
    template: "NNN[0,30]NN[0,30]NN[0,30]NN",
    quorum: "62",
};

/// Some milliseconds, but several saves.
pub const SHORT: Kind = Kind {
    seed: 3,
    sequences: 16,
    letters: 100,
    template: "NNNN[0,12]NNNN",
    quorum: "2",
};

impl Kind {
    /// The search, whose file is put into a folder.
    pub fn over(self, scratch: &Scratch) -> Search {
        let mut random = Random::new(self.seed);
        let sequences: Vec<_> = (0..self.sequences)
            .map(|_| random.letters(self.letters))
            .collect();
        let name = format!("random-{}.fa", self.seed);
        Search {
            kind: self,
            file: scratch.file(&name, fasta(&sequences)),
        }
    }
}

/// A search that can be asked for.
pub struct Search {
    kind: Kind,
    pub file: PathBuf,
}

impl Search {
    /// The words of the search without a job.
    pub fn words(&self) -> Vec<&str> {
        vec![
            "search",
            self.kind.template,
            self.kind.quorum,
            word(&self.file),
        ]
    }

    /// The same with a job.
    pub fn in_job<'a>(&'a self, folder: &'a Path) -> Vec<&'a str> {
        let mut words = self.words();
        words.extend(["--job", word(folder)]);
        words
    }

    /// What an operator asks for next: to go on, or, where nothing was saved
    /// yet, to begin.
    pub fn further<'a>(&'a self, folder: &'a Path) -> Vec<&'a str> {
        if folder.join("state").exists() {
            vec!["resume", word(folder)]
        } else {
            self.in_job(folder)
        }
    }

    /// The table of the search, which nothing interrupts.
    pub fn table(&self) -> Vec<u8> {
        run(&self.words()).printed()
    }

    /// Begins the job, and stops it by SIGTERM after its first rows.
    pub fn stopped(&self, folder: &Path) {
        for _ in 0..20 {
            let child = start(&self.in_job(folder));
            until_rows(folder, HEADER.len() as u64);
            signal(&child, SIGTERM);
            let ran = end(child);
            if ran.status == Some(5) {
                return;
            }
            // It was over before the signal came.
            assert_eq!(ran.status, Some(0), "{}", ran.err);
            fs::remove_dir_all(folder).expect("the folder goes");
        }
        panic!("the search ends too soon to be stopped");
    }
}

/// Starts the program, and does not wait for it.
pub fn start(words: &[&str]) -> Started {
    start_as(program(), words)
}

/// The same with a command that has been prepared. The signals that a job heeds
/// do what they do by default, also where the tests were started so that some
/// are ignored, as by nohup or in the background.
pub fn start_as(mut command: Command, words: &[&str]) -> Started {
    // SAFETY: between fork and exec only the C library's `signal` is called,
    // which may be.
    unsafe {
        command.pre_exec(|| {
            for number in [SIGHUP, SIGINT, SIGUSR1, SIGUSR2, SIGTERM, SIGXCPU] {
                set_handler(number, DEFAULT);
            }
            Ok(())
        });
    }
    let child = command
        .args(words)
        .stdin(Stdio::null())
        .stdout(Stdio::piped())
        .stderr(Stdio::piped())
        .spawn();
    Started::new(child.expect("the program starts"), words)
}

/// A program that was started, and its words.
pub struct Started {
    child: Child,
    words: Vec<String>,
}

impl Started {
    pub fn new(child: Child, words: &[&str]) -> Started {
        let words = words.iter().map(|word| word.to_string()).collect();
        Started { child, words }
    }
}

impl Deref for Started {
    type Target = Child;

    fn deref(&self) -> &Child {
        &self.child
    }
}

impl DerefMut for Started {
    fn deref_mut(&mut self) -> &mut Child {
        &mut self.child
    }
}

/// Waits for a program's end.
pub fn end(started: Started) -> Ran {
    let output = started.child.wait_with_output();
    Ran::new(&started.words, output.expect("the program ends"))
}

// The C library's.
extern "C" {
    fn kill(process: i32, signal: i32) -> i32;
    #[link_name = "signal"]
    fn set_handler(number: i32, handler: usize) -> usize;
}

const DEFAULT: usize = 0;

/// Sends a signal to a program that was started and not waited for.
pub fn signal(child: &Child, number: i32) {
    let process = i32::try_from(child.id()).expect("the number of a process");
    // SAFETY: it passes two numbers. The process is not waited for yet, so the
    // number is still its own.
    assert_eq!(unsafe { kill(process, number) }, 0);
}

/// Waits until a job's table has more than so many bytes.
pub fn until_rows(folder: &Path, bytes: u64) {
    let rows = folder.join("rows.tsv");
    let begun = Instant::now();
    while !fs::metadata(&rows).is_ok_and(|found| found.len() > bytes) {
        assert!(begun.elapsed() < Duration::from_secs(60), "no rows come");
        thread::sleep(Duration::from_millis(1));
    }
}

/// The name and the bytes of every file of a folder; a folder in it has none.
pub fn files(folder: &Path) -> BTreeMap<String, Option<Vec<u8>>> {
    fs::read_dir(folder)
        .expect("a folder")
        .map(|entry| {
            let entry = entry.expect("an entry");
            let name = entry.file_name().into_string().expect("a name");
            (name, fs::read(entry.path()).ok())
        })
        .collect()
}

/// Copies a folder of files to a new place.
pub fn copy(from: &Path, to: &Path) {
    fs::create_dir(to).expect("a new folder");
    for name in files(from).keys() {
        fs::copy(from.join(name), to.join(name)).expect("a copy");
    }
}

/// A line of the state: the value behind a name.
pub fn state_value(folder: &Path, name: &str) -> Option<u64> {
    let text = fs::read_to_string(folder.join("state")).ok()?;
    text.lines()
        .find_map(|line| line.strip_prefix(name)?.strip_prefix(' ')?.parse().ok())
}

/// That two tables are the same, byte for byte; long ones are not shown.
pub fn same(table: &[u8], expected: &[u8], whose: &str) {
    let first = table
        .iter()
        .zip(expected)
        .position(|(one, other)| one != other);
    assert!(
        table == expected,
        "{whose}: {} bytes and not {}, the first other one at {first:?}",
        table.len(),
        expected.len()
    );
}

/// That a job ended whole: what was printed, and what is kept.
pub fn whole(ran: Ran, folder: &Path, expected: &[u8]) {
    same(&ran.printed(), expected, "what was printed");
    let kept = fs::read(folder.join("rows.tsv")).expect("the job's table");
    same(&kept, expected, "rows.tsv");
}
