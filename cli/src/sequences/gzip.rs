//! Files that gzip packed, unpacked by the system's own gzip.

use super::input::{too_long, MOST_BYTES};
use crate::failure::{Answer, Failure};
use std::io::{self, ErrorKind, Read, Write};
use std::process::{Child, Command, ExitStatus, Stdio};
use std::sync::mpsc::{self, Receiver};
use std::thread;
use std::time::Duration;

/// How long a pipe of a gzip that has ended may stay open.
const GRACE: Duration = Duration::from_secs(10);

/// The most bytes that are heard of what gzip says.
const MOST_SAID: u64 = 1_000;

/// Whether a file is packed, as its first bytes say.
pub fn packed(file: &[u8]) -> bool {
    file.starts_with(&[0x1f, 0x8b])
}

/// A gzip that does not outlive this.
struct Running(Child);

impl Drop for Running {
    fn drop(&mut self) {
        // Of one that has ended already there is nothing to end.
        let _ = self.0.kill();
        let _ = self.0.wait();
    }
}

/// The bytes of a packed file.
pub fn unpacked(packed: Vec<u8>, called: &str) -> Answer<Vec<u8>> {
    let broken = |error: io::Error| Failure::io(format!("{called}: gzip"), &error);
    let child = Command::new("gzip")
        .arg("-dc")
        // Options of the user's own.
        .env_remove("GZIP")
        .stdin(Stdio::piped())
        .stdout(Stdio::piped())
        .stderr(Stdio::piped())
        .spawn();
    let mut gzip = match child {
        Ok(child) => Running(child),
        Err(error) if error.kind() == ErrorKind::NotFound => return Err(no_gzip(called)),
        Err(error) => return Err(broken(error)),
    };
    let pipes = (
        gzip.0.stdin.take(),
        gzip.0.stdout.take(),
        gzip.0.stderr.take(),
    );
    let (Some(mut input), Some(output), Some(errors)) = pipes else {
        return Err(Failure::broken(format!("{called}: gzip has no pipes")));
    };
    // None of the threads is waited for: something that gzip started may hold
    // on to a pipe.
    thread::Builder::new()
        // A gzip that has heard enough closes the pipe.
        .spawn(move || drop(input.write_all(&packed)))
        .map_err(broken)?;
    let output = heard(output, MOST_BYTES + 1).map_err(broken)?;
    let errors = heard(errors, MOST_SAID).map_err(broken)?;
    let bytes = printed(&mut gzip, &output).map_err(broken)?;
    if bytes.len() as u64 > MOST_BYTES {
        return Err(too_long(&format!("{called}, unpacked")));
    }
    let status = gzip.0.wait().map_err(broken)?;
    if status.success() {
        return Ok(bytes);
    }
    let errors = errors.recv_timeout(GRACE).unwrap_or(Ok(Vec::new()));
    let why = why(status, &errors.unwrap_or_default());
    // What was unpacked may be all of it, or a part that was joined wrongly.
    let what = if why.contains("trailing garbage") {
        "there is something behind the packed data, and gzip says"
    } else {
        "gzip cannot unpack it"
    };
    Err(Failure::broken(format!("{called}: {what}: {why}")))
}

/// Reads a pipe in a thread, to its end or up to so many bytes, which come in
/// one piece. What comes after them is read too, and let go.
fn heard(
    mut from: impl Read + Send + 'static,
    most: u64,
) -> io::Result<Receiver<io::Result<Vec<u8>>>> {
    let (to, heard) = mpsc::channel();
    thread::Builder::new().spawn(move || {
        let mut bytes = Vec::new();
        let read = from.by_ref().take(most).read_to_end(&mut bytes);
        // Where nobody hears it any more, there is nobody to be told.
        let _ = to.send(read.map(|_| bytes));
        let _ = io::copy(&mut from, &mut io::sink());
    })?;
    Ok(heard)
}

/// What gzip printed. Once it has ended, no more can come of it, though the
/// pipe may stay open.
fn printed(gzip: &mut Running, output: &Receiver<io::Result<Vec<u8>>>) -> io::Result<Vec<u8>> {
    loop {
        if let Ok(bytes) = output.recv_timeout(Duration::from_millis(100)) {
            return bytes;
        }
        if gzip.0.try_wait()?.is_some() {
            return output.recv_timeout(GRACE).unwrap_or(Err(io::Error::other(
                "it has ended, and something holds on to its output",
            )));
        }
    }
}

/// Why gzip failed, in its own words where it has any.
fn why(status: ExitStatus, errors: &[u8]) -> String {
    let text = String::from_utf8_lossy(errors);
    let lines: Vec<&str> = text
        .lines()
        .map(|line| line.trim().trim_start_matches("gzip: stdin: "))
        .filter(|line| !line.is_empty())
        .collect();
    match (lines.is_empty(), status.code()) {
        (false, _) => lines.join("; "),
        (true, Some(code)) => format!("it ended with {code}"),
        (true, None) => "a signal ended it".to_string(),
    }
}

/// A system without gzip.
fn no_gzip(called: &str) -> Failure {
    Failure::broken(format!(
        "{called}: it is packed by gzip, and there is no gzip on the PATH to unpack it"
    ))
    .and("Install gzip, or unpack the file where there is one: gzip -d.")
}
