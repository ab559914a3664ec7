//! A program run on an input, with the comparison of what it prints.

use std::collections::BTreeMap;
use std::io::{Read, Write};
use std::process::{Command, Stdio};
use std::thread;

/// What a program writes when it reads this input. The command is the program
/// and what it is run with: an emulator and a loader before it, where the
/// machine wants them.
fn run(command: &[String], input: Vec<u8>) -> Result<Vec<u8>, String> {
    let mut child = Command::new(&command[0])
        .args(&command[1..])
        .stdin(Stdio::piped())
        .stdout(Stdio::piped())
        .spawn()
        .map_err(|error| format!("{} did not start: {error}", command[0]))?;
    // Written from a thread of its own: a program may answer as it reads.
    let mut to = child.stdin.take().expect("standard input is a pipe");
    let writer = thread::spawn(move || to.write_all(&input));
    let mut output = Vec::new();
    let mut from = child.stdout.take().expect("standard output is a pipe");
    let read = from.read_to_end(&mut output);
    let status = child.wait().map_err(|error| error.to_string())?;
    // A write fails where the program ended early, which its answers show.
    let _ = writer.join();
    read.map_err(|error| format!("its answers could not be read: {error}"))?;
    if status.success() {
        Ok(output)
    } else {
        Err(format!("the program ended with {status}"))
    }
}

/// Some bytes of a text from a place on, as they are shown beside a difference.
fn shown(text: &[u8], from: usize) -> String {
    let rest = &text[from.min(text.len())..];
    rest[..rest.len().min(300)].escape_ascii().to_string()
}

/// Whether a program prints what the second one does for an input; if not,
/// what differs.
pub fn prints(command: &[String], input: &[u8], expected: &[u8]) -> Result<(), String> {
    let printed = run(command, input.to_vec())?;
    if printed == expected {
        return Ok(());
    }
    let pairs = printed.iter().zip(expected);
    let same = pairs.take_while(|(a, b)| a == b).count();
    Err(format!(
        "for an input of {} bytes, {}\nthe program differs from the second one from byte {same} on: {}\ninstead of: {}",
        input.len(),
        shown(input, 0),
        shown(&printed, same),
        shown(expected, same)
    ))
}

/// Prints how often each refusal came up (0 is none); all that are expected
/// have to, and no other may.
pub fn all_seen(name: &str, expected: &[u64], seen: &BTreeMap<u64, usize>) -> Result<(), String> {
    let counts: Vec<String> = seen.iter().map(|(r, n)| format!("{r}: {n}")).collect();
    println!("{name}, by refusal (0 is none): {}", counts.join(", "));
    match expected.iter().find(|refusal| !seen.contains_key(refusal)) {
        Some(refusal) => Err(format!("none of the {name} came to refusal {refusal}")),
        None if seen.len() > expected.len() => {
            Err(format!("one of the {name} came to another refusal"))
        }
        None => Ok(()),
    }
}
