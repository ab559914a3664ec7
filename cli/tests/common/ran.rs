//! What a run of the program left behind.

use std::ffi::{OsStr, OsString};
use std::process::Output;

/// What the warnings of sequences have in common with no other words.
pub const WARNINGS: [&str; 4] = [
    " is empty",
    " are empty",
    " for several records",
    " taken as upper-case ones",
];

/// What a run of the program with these words left behind.
#[derive(Debug)]
pub struct Ran {
    pub words: Vec<OsString>,
    pub status: Option<i32>,
    pub out: Vec<u8>,
    pub err: String,
}

impl Ran {
    pub fn new<S: AsRef<OsStr>>(words: &[S], output: Output) -> Ran {
        Ran {
            words: words.iter().map(|word| word.as_ref().into()).collect(),
            status: output.status.code(),
            out: output.stdout,
            err: String::from_utf8_lossy(&output.stderr).into_owned(),
        }
    }

    /// What a run that went well printed. It may have warned of its sequences.
    pub fn printed(self) -> Vec<u8> {
        assert_eq!(self.status, Some(0), "{}", self.err);
        assert_eq!(self.complaints(), "", "said although all is well");
        self.out
    }

    /// What was said, but for the two lines in which a search or a resume tells
    /// what it searches and what there was of it, unless it is to be quiet, and
    /// for warnings of what reads a file of sequences.
    pub fn complaints(&self) -> String {
        let has = |word: &str| self.words.iter().any(|given| given == word);
        let begins = |word: &str| self.words.first().is_some_and(|first| first == word);
        let in_job = |given: &OsString| given.as_encoded_bytes().starts_with(b"--job");
        let tells = (begins("search") || begins("resume")) && !has("--quiet");
        let reads = begins("search") || begins("places") && !self.words.iter().any(in_job);
        let mut told = [!tells; 2];
        let mut complaints = String::new();
        for line in self.err.lines() {
            let warns = WARNINGS.iter().any(|words| line.contains(words));
            let tells = [is_opening(line), is_closing(line)];
            match tells.iter().position(|is| *is) {
                Some(kind) if !told[kind] => told[kind] = true,
                None if reads && warns && line.starts_with("tulfasheq: ") => {}
                _ => complaints.extend([line, "\n"]),
            }
        }
        complaints
    }

    /// What a run that ended with a status said; it printed nothing.
    pub fn said(self, status: i32) -> String {
        assert_eq!(self.status, Some(status), "{}", self.err);
        assert!(self.out.is_empty(), "printed: {:?}", self.out);
        assert!(!self.err.contains("panicked"), "{}", self.err);
        self.err
    }
}

/// The parts of a line that the program says.
fn parts(line: &str) -> Vec<&str> {
    let said = line.strip_prefix("tulfasheq: ");
    said.map_or(Vec::new(), |said| said.split(", ").collect())
}

/// Whether words are a number and what is counted, or several of it.
fn counts(words: &str, one: &str) -> bool {
    let Some((number, counted)) = words.split_once(' ') else {
        return false;
    };
    let is_number = number.bytes().all(|b| b.is_ascii_digit() || b == b',');
    is_number && (counted == one || counted.strip_suffix('s') == Some(one))
}

/// Whether a line tells what is searched.
fn is_opening(line: &str) -> bool {
    let (searched, so_far) = match parts(line)[..] {
        [sequences, letters, quorum] => ([sequences, letters, quorum], None),
        [sequences, letters, quorum, rows] => ([sequences, letters, quorum], Some(rows)),
        _ => return false,
    };
    let [sequences, letters, quorum] = searched;
    let so_far = so_far.map(|rows| rows.strip_suffix(" so far"));
    counts(sequences, "sequence")
        && counts(letters, "letter")
        && quorum.starts_with("quorum ")
        && so_far.is_none_or(|rows| rows.is_some_and(|rows| counts(rows, "row")))
}

/// Whether a line tells what there was of a search.
fn is_closing(line: &str) -> bool {
    match parts(line)[..] {
        [rows, steps, time] => {
            let is_time = time.starts_with(|c: char| c.is_ascii_digit());
            counts(rows, "row") && counts(steps, "step") && is_time
        }
        _ => false,
    }
}
