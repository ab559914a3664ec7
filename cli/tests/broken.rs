//! Reading or writing that fails, files that never end or that change, and
//! files that must not be written over.

#[path = "common/asked.rs"]
mod asked;
mod common;
#[path = "common/within.rs"]
mod within;

use asked::{Asked, Quorum};
use common::{run, word, Ran, Scratch};
use std::fs::{self, File, OpenOptions, Permissions};
use std::io::Write;
use std::os::unix::fs::{symlink, PermissionsExt};
use std::sync::atomic::{AtomicBool, Ordering};
use std::thread;
use within::{ran, said, within};

const FILE: &str = ">a\nACGTACGT\n>b\nACGGT\n";

/// A folder with a file of two sequences.
fn folder() -> Scratch {
    let scratch = Scratch::new();
    scratch.file("a.fa", FILE);
    scratch
}

#[test]
fn a_file_that_cannot_be_read_is_told() {
    let scratch = folder();
    let of = |file: &str| said(&scratch, &["search", "NN", "1", file], 4);
    assert_eq!(of("."), "tulfasheq: .: is a directory\n");
    assert_eq!(of("b.fa"), "tulfasheq: b.fa: no such file or directory\n");
    assert_eq!(of("a.fa/b"), "tulfasheq: a.fa/b: not a directory\n");
    let secret = scratch.file("secret.fa", FILE);
    fs::set_permissions(&secret, Permissions::from_mode(0o000)).expect("a file of our own");
    if File::open(&secret).is_err() {
        assert_eq!(of("secret.fa"), "tulfasheq: secret.fa: permission denied\n");
    } else {
        // Someone who may read all files: another read that fails.
        let told = of("/proc/self/mem");
        assert!(told.starts_with("tulfasheq: /proc/self/mem: "), "{told}");
    }
}

#[test]
fn a_table_that_cannot_be_written_is_told() {
    let scratch = folder();
    let search = ["search", "NN", "1", "a.fa"];
    let whole = "What was written is not whole.\n";
    let full = "no space left on device\n";
    let full_out = File::create("/dev/full").expect("the full device");
    assert_eq!(
        ran(within(&scratch, &search).stdout(full_out)).said(4),
        format!("tulfasheq: standard output: {full}{whole}")
    );
    let (reader, writer) = std::io::pipe().expect("a pipe");
    drop(reader);
    assert_eq!(
        ran(within(&scratch, &search).stdout(writer)).said(4),
        format!("tulfasheq: standard output: broken pipe\n{whole}")
    );
    let out = |file| said(&scratch, &[&search[..], &["--out", file]].concat(), 4);
    assert_eq!(
        out("/dev/full"),
        format!("tulfasheq: /dev/full: {full}{whole}")
    );
    assert_eq!(out("."), "tulfasheq: .: is a directory\n");
    assert_eq!(
        out("none/out.tsv"),
        "tulfasheq: none/out.tsv: no such file or directory\n"
    );
    let full_out = File::create("/dev/full").expect("the full device");
    assert!(ran(within(&scratch, &["help"]).stdout(full_out))
        .said(4)
        .contains(full));
}

#[test]
fn a_file_that_never_ends_is_not_read_for_ever() {
    let scratch = folder();
    assert_eq!(
        said(&scratch, &["search", "NN", "1", "/dev/zero"], 3),
        "/dev/zero: longer than 16,777,216 bytes, and was not read on: a search takes at most 65,536 letters, in 1,024 sequences\n"
    );
    let zero = File::open("/dev/zero").expect("the device");
    let mut command = within(&scratch, &["search", "NN", "1", "-"]);
    assert!(ran(command.stdin(zero))
        .said(3)
        .starts_with("standard input: longer than 16,777,216 bytes, "));
}

#[test]
fn a_file_that_grows_is_searched_as_it_was_read() {
    let scratch = folder();
    let file = scratch.path("a.fa");
    let job = scratch.path("job");
    let ended = AtomicBool::new(false);
    let (table, grown) = thread::scope(|scope| {
        let writer = scope.spawn(|| {
            let mut file = OpenOptions::new().append(true).open(&file).expect("a file");
            let mut lines = 0;
            // Not so many that there are too many letters.
            while lines < 12_000 && !(lines > 100 && ended.load(Ordering::SeqCst)) {
                file.write_all(b"ACGTT\n").expect("room");
                lines += 1;
            }
            lines
        });
        let ran = run(&["search", "NN", "2", word(&file), "--job", word(&job)]);
        ended.store(true, Ordering::SeqCst);
        (ran.printed(), writer.join().expect("the writer ends"))
    });
    assert!(grown > 100);
    let asked = Asked {
        shape: vec![(2, 0, 0)],
        mixed: None,
        quorum: Quorum::Number(2),
        file: fs::read(job.join("sequences.fa")).expect("what was read"),
    };
    let expected = asked.expected().expect("a search").text();
    assert_eq!(String::from_utf8_lossy(&table), expected);
    let last = fs::read(&file).expect("what it grew to");
    assert!(last.starts_with(&asked.file));
}

/// Runs a search whose table would go over its own sequences.
fn spared(scratch: &Scratch, file: &str, out: &str) -> Ran {
    let mut command = within(scratch, &["search", "NN", "1", file, "--out", out]);
    if file == "-" {
        command.stdin(File::open(scratch.path("a.fa")).expect("the file"));
    }
    ran(&mut command)
}

#[test]
fn the_file_that_is_read_is_not_written_over() {
    let scratch = folder();
    let file = scratch.path("a.fa");
    fs::hard_link(&file, scratch.path("hard.fa")).expect("a link");
    symlink("a.fa", scratch.path("soft.fa")).expect("a link");
    for out in ["a.fa", "./a.fa", "hard.fa", "soft.fa"] {
        for (read, called) in [("a.fa", "a.fa"), ("-", "standard input")] {
            assert_eq!(
                spared(&scratch, read, out).said(2),
                format!("tulfasheq: --out {out} would write over {called}, which is read\n")
            );
            assert_eq!(fs::read_to_string(&file).expect("the file"), FILE);
        }
    }
    assert_eq!(spared(&scratch, "-", "out.tsv").printed(), b"");
}
