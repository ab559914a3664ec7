//! Reads standard input whole and writes the printout.

#![forbid(unsafe_code)]

use std::io::{self, Read, Write};
use std::process::ExitCode;

/// "It reads standard input" and "prints".
fn run() -> io::Result<()> {
    let mut input = Vec::new();
    io::stdin().lock().read_to_end(&mut input)?;
    let mut out = io::stdout().lock();
    out.write_all(&second::printout(&input))?;
    out.flush()
}

fn main() -> ExitCode {
    match run() {
        Ok(()) => ExitCode::SUCCESS,
        Err(error) => {
            // Nothing more can be done if standard error is closed too.
            let _ = writeln!(io::stderr(), "second: {error}");
            ExitCode::FAILURE
        }
    }
}
