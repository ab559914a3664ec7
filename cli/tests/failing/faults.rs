//! The program with calls that go wrong.

use crate::common::jobs::{end, start_as};
use crate::common::{program, word, Ran, Scratch};
use std::path::PathBuf;
use std::process::Command;

/// What stands where a table is written out.
pub const OLDER: &str = "an older table\n";

/// `failing.c`, built.
pub struct Faults {
    library: PathBuf,
}

/// The call that went wrong: its name, and the file.
#[derive(Debug)]
pub struct Hit {
    pub call: String,
    pub file: String,
}

impl Faults {
    pub fn new(scratch: &Scratch) -> Faults {
        let library = scratch.path("failing.so");
        let built = Command::new("cc")
            .args(["-shared", "-fPIC", "-O1", "-o", word(&library)])
            .arg(concat!(
                env!("CARGO_MANIFEST_DIR"),
                "/tests/failing/failing.c"
            ))
            .status()
            .expect("a C compiler");
        assert!(built.success(), "failing.c is built");
        Faults { library }
    }

    /// Runs the program with its call of a number going wrong, if it comes to
    /// that call. Answers with what was told, too.
    pub fn run<S: AsRef<str>>(&self, words: &[S], at: u64, how: &str) -> (Ran, Vec<Hit>) {
        let words: Vec<&str> = words.iter().map(AsRef::as_ref).collect();
        let mut command = program();
        command
            .env("LD_PRELOAD", &self.library)
            .env("FAULT_AT", at.to_string())
            .env("FAULT_HOW", how);
        let mut ran = end(start_as(command, &words));
        let (mut hits, mut said) = (Vec::new(), String::new());
        for line in ran.err.lines() {
            match line.strip_prefix("fault: ").and_then(|l| l.split_once(' ')) {
                Some((call, file)) => hits.push(Hit {
                    call: call.to_string(),
                    file: file.to_string(),
                }),
                None => said.extend([line, "\n"]),
            }
        }
        ran.err = said;
        (ran, hits)
    }

    /// Runs it with nothing going wrong.
    pub fn well<S: AsRef<str>>(&self, words: &[S]) -> Ran {
        self.run(words, 0, "").0
    }
}
