//! The program run within a folder, so that its messages tell a file by its
//! name alone.

// Each test file uses a part of it.
#![allow(dead_code)]

use crate::common::{program, Ran, Scratch};
use std::ffi::OsStr;
use std::process::{Command, Stdio};

/// The program with these words, within the folder, with nothing to read.
pub fn within<S: AsRef<OsStr>>(scratch: &Scratch, words: &[S]) -> Command {
    let mut command = program();
    command.current_dir(scratch.path(""));
    command.args(words).stdin(Stdio::null());
    command
}

/// Runs it to its end.
pub fn ran(command: &mut Command) -> Ran {
    let output = command.output().expect("the program starts");
    let words: Vec<&OsStr> = command.get_args().collect();
    Ran::new(&words, output)
}

/// What the program says that ends with this status within the folder, having
/// printed nothing.
pub fn said<S: AsRef<OsStr>>(scratch: &Scratch, words: &[S], status: i32) -> String {
    ran(&mut within(scratch, words)).said(status)
}
