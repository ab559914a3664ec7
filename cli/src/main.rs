//! `tulfasheq`: the operators' program over the proved library.
//!
//! It holds no rule of the paper. Which letters, templates, quorums, places
//! and motifs there are, what a search lists and where a motif occurs, is what
//! the library answers; this reads files, writes tables, and keeps jobs.

#![warn(clippy::pedantic)]
#![allow(
    clippy::cast_precision_loss,
    clippy::cast_possible_truncation,
    clippy::cast_sign_loss
)]

mod caller;
mod caret;
mod counted;
mod dearest;
mod digits;
mod failure;
mod folder;
mod help;
mod job;
mod legs;
mod out;
mod pace;
mod places;
mod processor;
mod progress;
mod quorum;
mod refusals;
mod run;
mod say;
mod search;
mod sequences;
mod signals;
mod status;
mod sum;
mod table;
mod template;
mod words;

use failure::{Answer, Failure};
use std::ffi::OsString;
use std::process::ExitCode;
use std::thread;
use words::Command;

/// The stack of a thread that works: a call of the library uses less than
/// 1.5 MiB, whatever the limit of the program's first thread is.
const STACK: usize = 8 * 1024 * 1024;

fn run(words: Vec<OsString>) -> Answer<()> {
    match words::read(words)? {
        Command::Help(of) => help::print(of),
        Command::Version => help::version(),
        Command::Search(asked) => search::search(asked),
        Command::Resume { folder, out, quiet } => search::resume(&folder, &out, quiet),
        Command::Status { folder } => status::status(&folder),
        Command::Places(asked) => places::places(asked),
    }
}

fn main() -> ExitCode {
    signals::ignore_limits();
    let words = std::env::args_os().skip(1).collect();
    let answer = thread::Builder::new()
        .stack_size(STACK)
        .spawn(move || run(words))
        .map_err(|error| Failure::io("a thread", &error))
        .and_then(|thread| {
            thread
                .join()
                .unwrap_or_else(|_| Err(Failure::broken("a fault of the program itself")))
        });
    match answer {
        Ok(()) => ExitCode::SUCCESS,
        Err(failure) => {
            say::say(&failure.words);
            ExitCode::from(failure.status)
        }
    }
}
