//! Why a command did not do what it was asked, in words, and the status that
//! the program ends with.

use std::fmt::Display;
use std::io;

/// What went wrong.
#[derive(Debug)]
pub struct Failure {
    /// The status that the program ends with.
    pub status: u8,
    /// What a person reads: lines without a last line end.
    pub words: String,
}

/// A command's answer.
pub type Answer<T> = Result<T, Failure>;

impl Failure {
    /// A command line that cannot be read.
    pub const USAGE: u8 = 2;
    /// What a rule refuses.
    pub const REFUSED: u8 = 3;
    /// Reading or writing that failed.
    pub const BROKEN: u8 = 4;
    /// A job that was stopped by a signal, and saved.
    pub const STOPPED: u8 = 5;
    /// A job that another program is working on.
    pub const BUSY: u8 = 6;
    /// A folder that is no job, or a job with a damaged file.
    pub const DAMAGED: u8 = 7;
    /// What was written is whole, but what it was made from is not: a job that
    /// has not ended, or a table without its last line.
    pub const UNFINISHED: u8 = 8;

    fn new(status: u8, words: impl Into<String>) -> Failure {
        let words = words.into();
        Failure { status, words }
    }

    pub fn usage(words: impl Into<String>) -> Failure {
        Failure::new(Failure::USAGE, format!("tulfasheq: {}", words.into()))
    }

    pub fn refused(words: impl Into<String>) -> Failure {
        Failure::new(Failure::REFUSED, words)
    }

    pub fn broken(words: impl Into<String>) -> Failure {
        Failure::new(Failure::BROKEN, format!("tulfasheq: {}", words.into()))
    }

    pub fn stopped(words: impl Into<String>) -> Failure {
        Failure::new(Failure::STOPPED, format!("tulfasheq: {}", words.into()))
    }

    pub fn busy(words: impl Into<String>) -> Failure {
        Failure::new(Failure::BUSY, format!("tulfasheq: {}", words.into()))
    }

    pub fn damaged(words: impl Into<String>) -> Failure {
        Failure::new(Failure::DAMAGED, format!("tulfasheq: {}", words.into()))
    }

    pub fn unfinished(words: impl Into<String>) -> Failure {
        Failure::new(Failure::UNFINISHED, format!("tulfasheq: {}", words.into()))
    }

    /// A file that could not be read or written.
    pub fn io(file: impl Display, error: &io::Error) -> Failure {
        Failure::broken(format!("{file}: {}", said(error)))
    }

    /// The same, and what it means for what was asked.
    pub fn and(mut self, more: impl Display) -> Failure {
        self.words = format!("{}\n{more}", self.words);
        self
    }
}

/// What the system says of an error, without its number.
fn said(error: &io::Error) -> String {
    let words = error.to_string();
    match words.find(" (os error") {
        Some(end) => words[..end].to_lowercase(),
        None => words,
    }
}
