//! Files that gzip packed, with the system's gzip, without one, and with some
//! that are none.

use crate::common::{fasta, run_on, Ran, Random, Scratch};
use crate::within::{ran, within};
use crate::{pasted, searched, well};
use std::fs;
use std::path::Path;
use std::process::Command;

/// Packs bytes by the system's gzip.
fn gzip(bytes: &[u8]) -> Vec<u8> {
    let scratch = Scratch::new();
    scratch.file("a", bytes);
    pasted(&scratch, "gzip -n a");
    fs::read(scratch.path("a.gz")).expect("a packed file")
}

/// Some sequences.
fn plain() -> Vec<u8> {
    let mut random = Random::new(43);
    fasta(&(0..20).map(|_| random.letters(200)).collect::<Vec<_>>())
}

/// A search over `a.fa.gz` with this gzip, a script, alone on the PATH before
/// what the script itself needs.
fn with(script: &str, scratch: &Scratch) -> Command {
    // The shell writes it: so no program that another test starts holds it
    // open while it is run.
    fs::create_dir_all(scratch.path("bin")).expect("a folder");
    let mut shell = Command::new("sh");
    shell.args([
        "-c",
        "printf '%s\\n' '#!/bin/sh' \"$1\" >bin/gzip && chmod 755 bin/gzip",
        "sh",
    ]);
    let written = shell.arg(script).current_dir(scratch.path("")).status();
    assert!(written.expect("a shell").success());
    let mut command = within(
        scratch,
        &[
            "search", "N", "1", "a.fa.gz", "--out", "out", "--job", "job",
        ],
    );
    let path = std::env::var("PATH").expect("a PATH");
    command.env("PATH", format!("{}:{path}", scratch.path("bin").display()));
    command
}

/// What is said of a file that is refused; nothing was made.
fn refused(scratch: &Scratch, ran: Ran, status: i32) -> String {
    let said = ran.said(status);
    assert!(!scratch.path("out").exists() && !scratch.path("job").exists());
    said
}

/// A folder with a packed file.
fn folder(packed: &[u8]) -> Scratch {
    let scratch = Scratch::new();
    scratch.file("a.fa.gz", packed);
    scratch
}

/// A search over the packed file, with the system's gzip.
fn search(scratch: &Scratch) -> Command {
    within(
        scratch,
        &[
            "search", "N", "1", "a.fa.gz", "--out", "out", "--job", "job",
        ],
    )
}

#[test]
fn a_packed_file_is_read_as_the_file_in_it() {
    let plain = plain();
    let packed = gzip(&plain);
    // Of several members, as bgzip writes them.
    let (first, second) = plain.split_at(1_000);
    let members = [gzip(first), gzip(b""), gzip(second), gzip(b"")].concat();
    for packed in [packed, members] {
        let scratch = folder(&packed);
        scratch.file("a.fa", &plain);
        // A name says nothing.
        scratch.file("b.txt", &packed);
        let expected = searched(&scratch, &["search", "NNN", "15", "a.fa"]);
        assert!(expected.0.lines().count() > 9, "{}", expected.0);
        assert_eq!(
            searched(&scratch, &["search", "NNN", "15", "a.fa.gz"]),
            expected
        );
        assert_eq!(
            searched(&scratch, &["search", "NNN", "15", "b.txt"]),
            expected
        );
        assert_eq!(
            well(run_on(&["search", "NNN", "15", "-"], &packed)),
            expected
        );
        let places = |file| searched(&scratch, &["places", "NNN", "ACG", file]);
        assert_eq!(places("a.fa.gz"), places("a.fa"));
        let job = ["search", "NNN", "15", "a.fa.gz", "--job", "job"];
        assert_eq!(searched(&scratch, &job), expected);
        assert!(fs::read(scratch.path("job/sequences.fa")).expect("a file") == plain);
        // The job needs no gzip.
        let mut resume = within(&scratch, &["resume", "job"]);
        assert_eq!(well(ran(resume.env("PATH", "/none"))), expected);
    }
}

#[test]
fn a_packed_file_can_be_soft_masked() {
    let scratch = folder(&gzip(b">a\nacGT\n"));
    let (table, said) = searched(&scratch, &["search", "NNNN", "1", "a.fa.gz", "--upper"]);
    assert!(table.contains("\nACGT\t1\t1\n"), "{table}");
    let told = "tulfasheq: a.fa.gz: 2 lower-case letters are taken as upper-case ones\n";
    assert_eq!(said, told);
}

#[test]
fn what_is_refused_in_a_packed_file_is_told_by_its_line_there() {
    let scratch = folder(&gzip(b">a\nACGT\nACU\n"));
    let said = refused(&scratch, ran(&mut search(&scratch)), 3);
    assert!(
        said.starts_with("a.fa.gz:3:3: 'U' is no letter (refusal 4)\n"),
        "{said}"
    );
    // No command can read the file as it is.
    assert!(said.contains(" FILE >NEW.fa "), "{said}");
    let scratch = folder(&gzip(b""));
    let said = refused(&scratch, ran(&mut search(&scratch)), 3);
    assert_eq!(said, "a.fa.gz: it holds no sequence (refusal 1)\n");
    let scratch = folder(&gzip(&gzip(b">a\nACGT\n")));
    let said = refused(&scratch, ran(&mut search(&scratch)), 3);
    assert_eq!(
        said,
        "a.fa.gz:1:1: text before the first '>': packed twice by gzip (refusal 19)\nUnpack it to the end: gzip -dc, twice.\n"
    );
}

#[test]
fn a_packed_file_that_is_damaged_is_told_in_gzip_s_words() {
    let packed = gzip(&plain());
    let mut turned = packed.clone();
    let middle = turned.len() / 2;
    turned[middle] ^= 4;
    for damaged in [
        &packed[..3],
        &packed[..packed.len() / 2],
        &packed[..packed.len() - 1],
        &turned,
    ] {
        let scratch = folder(damaged);
        let said = refused(&scratch, ran(&mut search(&scratch)), 4);
        let begins = "tulfasheq: a.fa.gz: gzip cannot unpack it: ";
        assert!(
            said.starts_with(begins) && said.len() > begins.len() + 5,
            "{said}"
        );
        assert_eq!(said.lines().count(), 1, "{said}");
    }
    // Something behind it: gzip warns, and who knows what is missing.
    let scratch = folder(&[&packed[..], b"garbage"].concat());
    let said = refused(&scratch, ran(&mut search(&scratch)), 4);
    let begins = "tulfasheq: a.fa.gz: there is something behind the packed data, and gzip says: ";
    assert!(
        said.starts_with(begins) && said.len() > begins.len() + 5,
        "{said}"
    );
}

#[test]
fn without_a_gzip_it_is_said_what_to_do() {
    let scratch = folder(&gzip(b">a\nACGT\n"));
    let said = refused(&scratch, ran(search(&scratch).env("PATH", "/none")), 4);
    assert_eq!(
        said,
        "tulfasheq: a.fa.gz: it is packed by gzip, and there is no gzip on the PATH to unpack it\nInstall gzip, or unpack the file where there is one: gzip -d.\n"
    );
}

#[test]
fn a_gzip_that_fails_is_heard() {
    let cannot = "tulfasheq: a.fa.gz: gzip cannot unpack it:";
    for (script, why) in [
        (
            "cat >/dev/null; printf '>a\\nACGT\\n'; exit 1",
            "it ended with 1",
        ),
        (
            "printf '>a\\nACGT\\n'; echo; echo no luck >&2; echo at all >&2; exit 3",
            "no luck; at all",
        ),
        ("printf '>a\\nACGT\\n'; kill -9 $$", "a signal ended it"),
        ("head -c 5000000 /dev/zero >&2; exit 1", ""),
    ] {
        // More than a pipe holds: some of these do not read it.
        let scratch = folder(&[&gzip(b">a\nACGT\n")[..], &[0; 300_000]].concat());
        let said = refused(&scratch, ran(&mut with(script, &scratch)), 4);
        assert!(said.starts_with(&format!("{cannot} {why}")), "{said:.200}");
        assert!(said.len() < 10_000);
    }
}

#[test]
fn a_gzip_that_prints_nothing_gives_no_sequence() {
    let scratch = folder(&gzip(b">a\nACGT\n"));
    let said = refused(&scratch, ran(&mut with("exit 0", &scratch)), 3);
    assert_eq!(said, "a.fa.gz: it holds no sequence (refusal 1)\n");
}

#[test]
fn a_gzip_that_prints_for_ever_is_ended() {
    let too_long = "a.fa.gz, unpacked: longer than 16,777,216 bytes, and was not read on";
    let scratch = folder(&gzip(b">a\nACGT\n"));
    // The second does not hear that the pipe is closed.
    for script in [
        "echo $$ >pid; exec yes ACGT",
        "echo $$ >pid; head -c 17000000 /dev/zero; exec sleep 1000",
    ] {
        let said = refused(&scratch, ran(&mut with(script, &scratch)), 3);
        assert!(said.starts_with(too_long), "{said}");
        let pid = fs::read_to_string(scratch.path("pid")).expect("it began");
        assert!(
            !Path::new(&format!("/proc/{}", pid.trim())).exists(),
            "it lives on"
        );
    }
    let scratch = folder(&gzip(&[b'\n'; 17_000_000]));
    let said = refused(&scratch, ran(&mut search(&scratch)), 3);
    assert!(said.starts_with(too_long), "{said}");
}
