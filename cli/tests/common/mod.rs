//! What the tests share: a folder of their own, the program run on words, and
//! random files.

// Each test file uses a part of it.
#![allow(dead_code)]

pub mod jobs;
pub mod ran;
pub mod sums;
pub mod terminal;

pub use ran::Ran;
use std::ffi::OsStr;
use std::fs;
use std::io::{ErrorKind, Write};
use std::path::{Path, PathBuf};
use std::process::{Command, Stdio};
use std::sync::atomic::{AtomicU32, Ordering};

/// The program.
pub fn program() -> Command {
    Command::new(env!("CARGO_BIN_EXE_tulfasheq"))
}

/// A folder that is gone after the test.
pub struct Scratch(PathBuf);

impl Scratch {
    pub fn new() -> Scratch {
        static COUNT: AtomicU32 = AtomicU32::new(0);
        loop {
            let count = COUNT.fetch_add(1, Ordering::SeqCst);
            let name = format!("tulfasheq-{}-{count}", std::process::id());
            let folder = std::env::temp_dir().join(name);
            match fs::create_dir(&folder) {
                Ok(()) => return Scratch(folder),
                // One that a killed run left behind.
                Err(error) if error.kind() == ErrorKind::AlreadyExists => {}
                Err(error) => panic!("no new folder: {error}"),
            }
        }
    }

    pub fn path(&self, name: &str) -> PathBuf {
        self.0.join(name)
    }

    /// A file in it.
    pub fn file(&self, name: &str, bytes: impl AsRef<[u8]>) -> PathBuf {
        let path = self.path(name);
        fs::write(&path, bytes).expect("a new file");
        path
    }
}

impl Drop for Scratch {
    fn drop(&mut self) {
        let _ = fs::remove_dir_all(&self.0);
    }
}

/// The program under a limit on the size of its files, in blocks of 512 bytes.
pub fn limited(blocks: u64) -> Command {
    let mut command = Command::new("sh");
    command
        .arg("-c")
        .arg("ulimit -f \"$0\"; exec \"$@\"")
        .arg(blocks.to_string())
        .arg(program().get_program());
    command
}

/// The names in a folder that are files being written.
pub fn parts(folder: &Path) -> Vec<String> {
    fs::read_dir(folder)
        .expect("a folder")
        .map(|entry| entry.expect("an entry").file_name().into_string())
        .map(|name| name.expect("text"))
        .filter(|name| name.ends_with(".tulfasheq-part"))
        .collect()
}

/// Runs the program to its end.
pub fn run<S: AsRef<OsStr>>(words: &[S]) -> Ran {
    run_on(words, b"")
}

/// The same, with this on its standard input.
pub fn run_on<S: AsRef<OsStr>>(words: &[S], input: &[u8]) -> Ran {
    let mut child = program()
        .args(words)
        .stdin(Stdio::piped())
        .stdout(Stdio::piped())
        .stderr(Stdio::piped())
        .spawn()
        .expect("the program starts");
    let mut stdin = child.stdin.take().expect("a pipe");
    let input = input.to_vec();
    let writer = std::thread::spawn(move || {
        // A program that refuses its words does not read.
        let _ = stdin.write_all(&input);
    });
    let output = child.wait_with_output().expect("the program ends");
    writer.join().expect("the input was written");
    Ran::new(words, output)
}

/// Numbers that look random, the same in every run (xorshift).
pub struct Random(u64);

impl Random {
    pub fn new(seed: u64) -> Random {
        Random(seed.wrapping_mul(0x9e37_79b9_7f4a_7c15) | 1)
    }

    pub fn next(&mut self) -> u64 {
        self.0 ^= self.0 << 13;
        self.0 ^= self.0 >> 7;
        self.0 ^= self.0 << 17;
        self.0.wrapping_mul(0x2545_f491_4f6c_dd1d)
    }

    /// A number below another.
    pub fn below(&mut self, most: u64) -> u64 {
        (self.next() >> 11) % most
    }

    /// Letters.
    pub fn letters(&mut self, count: u64) -> Vec<u8> {
        (0..count)
            .map(|_| b"ACGT"[self.below(4) as usize])
            .collect()
    }
}

/// A FASTA file of sequences, in lines of 60 letters, named s1, s2 and so on.
pub fn fasta(sequences: &[Vec<u8>]) -> Vec<u8> {
    let mut file = Vec::new();
    for (i, sequence) in sequences.iter().enumerate() {
        file.extend_from_slice(format!(">s{}\n", i + 1).as_bytes());
        for line in sequence.chunks(60) {
            file.extend_from_slice(line);
            file.push(b'\n');
        }
    }
    file
}

/// A path as a word.
pub fn word(path: &Path) -> &str {
    path.to_str().expect("a path that is text")
}
