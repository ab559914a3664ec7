//! What cannot be done is said in words, with a status, and nothing is
//! written.

use crate::common::{program, run, run_on, word, Scratch};
use std::fs::{self, OpenOptions};
use std::process::{Output, Stdio};

const FILE: &[u8] = b">a\nACGTACGTA\n>b\nACGGTA\n";

/// Runs `places` on a file of these bytes.
fn said(file: &[u8], status: i32, before: &[&str], after: &[&str]) -> String {
    let scratch = Scratch::new();
    let file = scratch.file("file.fa", file);
    let out = scratch.path("out");
    let out = ["--out", word(&out)];
    let words = [&["places"], before, &[word(&file)], after].concat();
    let said = run(&words).said(status);
    assert_eq!(run(&[&words[..], &out].concat()).said(status), said);
    assert!(!scratch.path("out").exists(), "made although refused");
    said
}

#[test]
fn a_motif_that_cannot_be_read_has_a_caret() {
    for (before, caret) in [
        (["NNN[0,3]NN", "ACG[0,3]TX"], "  ACG[0,3]TX\n           ^\n"),
        (["NNN[0,3]NN", "ACG[0,2]TA"], "  ACG[0,2]TA\n     ^\n"),
        (["NNN[0,3]NN", "ACGT"], "  ACGT\n      ^\n"),
        (["NNN[0,3]NN", "ACGTAA"], "  ACGTAA\n       ^\n"),
        (["NNN[0,3]NN", "ACNTA"], "  ACNTA\n    ^\n"),
        (["NNN[0,3]NN", "äCGTA"], "  äCGTA\n  ^\n"),
        (["NN[0,x]NN", "ACTA"], "  NN[0,x]NN\n       ^\n"),
    ] {
        let said = said(FILE, 2, &before, &[]);
        assert!(said.ends_with(caret), "{said}");
    }
}

#[test]
fn refusals_have_their_numbers() {
    let over = said(FILE, 3, &["NN[0,3]NN", "RR[0,3]AC"], &["--mixed=1,2"]);
    assert!(over.contains("refusal 14"), "{over}");
    let long = said(FILE, 3, &[&"N".repeat(13), &"A".repeat(13)], &[]);
    assert!(long.contains("refusal 6") && long.contains('^'), "{long}");
    let allowed = said(FILE, 3, &["NN", "AC"], &["--mixed=3"]);
    assert!(allowed.contains("refusal 24"), "{allowed}");
    let none = said(b"", 3, &["NN", "AC"], &[]);
    assert!(none.contains("refusal 1)"), "{none}");
    let letter = said(b">a\nACNT\n", 3, &["NN", "AC"], &[]);
    assert!(letter.contains("file.fa:2:3: 'N' is no letter"), "{letter}");
    let many = format!("N{}", "[0,1]N".repeat(100_000));
    let many = said(FILE, 3, &[&many[..60_001], &"A".repeat(10_001)], &[]);
    assert!(many.contains("refusal 5)"), "{many}");
}

#[test]
fn a_first_row_above_the_list_is_told_how_long_the_list_is() {
    let ask = |from: &str| ["--from".to_string(), from.to_string()];
    for above in ["4", "18446744073709551615", "99999999999999999999999"] {
        let after = ask(above);
        let said = said(FILE, 3, &["NN", "AC"], &[&after[0], &after[1]]);
        assert!(said.contains("the list has 3 rows"), "{said}");
        assert!(said.contains("refusal 15"), "{said}");
    }
    let scratch = Scratch::new();
    let file = scratch.file("file.fa", FILE);
    let at = run(&["places", "NN", "AC", word(&file), "--from", "3"]).printed();
    assert_eq!(at, b"motif\tname\tsequence\tstart1\n");
}

#[test]
fn a_name_that_a_format_cannot_hold_is_refused_by_its_record() {
    let long = [b'a'; 256];
    let names: [&[u8]; 6] = [b"", b"\x0b\x0b", b"x\x01", b"#x", b"tracks", &long];
    for name in names {
        // The record has no occurrence.
        let file = [FILE, b">", name, b" more\nA\n"].concat();
        let said = said(&file, 3, &["NN", "AC"], &["--bed"]);
        assert!(said.contains("record 3 cannot stand in BED"), "{said}");
    }
    let file = [FILE, b"> more\nA\n"].concat();
    let said = said(&file, 3, &["NN", "AC"], &["--gff"]);
    assert!(said.contains("record 3 cannot stand in GFF3"), "{said}");
}

#[test]
fn a_name_ends_at_a_space() {
    let bed = run_on(&["places", "NN", "AC", "-", "--bed"], b">chr 1\nAC\n");
    assert_eq!(bed.printed(), b"chr\t0\t2\tAC\t0\t+\t0\t2\t0\t1\t2\t0\n");
}

#[test]
fn a_damaged_line_of_a_list_is_told_by_its_number() {
    let rows = "motif\tsupport\toccurrences\nAC\t2\t3\n";
    let long = format!("{rows}{}", "A".repeat(70_000));
    let tables: [(&[u8], &str); 9] = [
        (b"motif\tsupport\toccurrences\nAC\t2\t3\nAX\t2\t3\n", ":3:"),
        (b"motif\tsupport\toccurrences\n# more\nAC\t2\n", ":3:"),
        (b"motif\tsupport\toccurrences\nAC\t2\t3\t4\n", ":2:"),
        (b"motif\tsupport\toccurrences\nRR\t2\t3\n", ":2:"),
        (b"motif\tsupport\toccurrences\nA\xff\t2\t3\n", ":2:"),
        (b"motif\tsupport\toccurrences\n\nAC\t2\t3\n", ":2:"),
        (b"# end: steps 1, rows 0\nAC\t2\t3\n", ":2:"),
        (long.as_bytes(), ":3:"),
        (b"", ": it holds no table"),
    ];
    for (table, place) in tables {
        let scratch = Scratch::new();
        let list = scratch.file("list", table);
        let list = word(&list).to_string();
        let said = said(FILE, 3, &["NN"], &["--list", &list, "--mixed=1"]);
        assert!(said.starts_with(&format!("{list}{place}")), "{said}");
    }
}

#[test]
fn what_is_read_is_not_written_over() {
    let scratch = Scratch::new();
    let file = scratch.file("file.fa", FILE);
    let job = scratch.path("job");
    let (file, job) = (word(&file), word(&job));
    let table = run(&["search", "NN", "1", file, "--job", job, "--quiet"]).printed();
    let list = scratch.file("list", &table);
    let list = word(&list);
    let in_job = |name: &str| format!("{job}/{name}");
    let kept = [file.to_string(), list.to_string(), in_job("rows.tsv")];
    let kept = kept
        .iter()
        .chain([&in_job("sequences.fa"), &in_job("state")])
        .map(|path| (path.clone(), fs::read(path).expect("a file")))
        .collect::<Vec<_>>();
    for words in [
        vec!["NN", "AC", file, "--out", file],
        vec!["NN", file, "--list", list, "--out", file],
        vec!["NN", file, "--list", list, "--out", list],
        vec!["--job", job, "--out", &in_job("rows.tsv")],
        vec!["--job", job, "--out", &in_job("sequences.fa")],
        vec!["--job", job, "--out", &in_job("state")],
    ] {
        let said = run(&[vec!["places"], words].concat()).said(2);
        assert!(said.contains("would write over"), "{said}");
    }
    let more = run(&["places", "NN", "--job", job]).said(2);
    assert!(more.contains("no word beside its options"), "{more}");
    let both = run(&["places", "NN", "-", "--list", "-"]).said(2);
    assert!(both.contains("standard input"), "{both}");
    for (path, bytes) in kept {
        assert_eq!(fs::read(&path).expect("a file"), bytes, "{path}");
    }
}

/// Millions of rows, to a standard output that this prepares.
fn long_list(out: Stdio, close: bool) -> Output {
    let scratch = Scratch::new();
    let file = scratch.file("file.fa", [b">a\n", &[b'A'; 60_000][..]].concat());
    let mut child = program()
        .args(["places", "N[0,255]N", "AA", word(&file), "--bed"])
        .stdout(out)
        .stderr(Stdio::piped())
        .spawn()
        .expect("the program starts");
    if close {
        drop(child.stdout.take());
    }
    child.wait_with_output().expect("the program ends")
}

#[test]
fn an_output_that_breaks_is_said() {
    let full = OpenOptions::new().write(true).open("/dev/full");
    let full = Stdio::from(full.expect("the full device"));
    for (output, why) in [
        (long_list(Stdio::piped(), true), "broken pipe"),
        (long_list(full, false), "no space left on device"),
    ] {
        let said = String::from_utf8_lossy(&output.stderr);
        assert_eq!(output.status.code(), Some(4), "{said}");
        assert!(said.contains(&format!("standard output: {why}")), "{said}");
        assert!(said.contains("is not whole"), "{said}");
        assert!(!said.contains("panicked"), "{said}");
    }
    let scratch = Scratch::new();
    let file = scratch.file("file.fa", FILE);
    let said = run(&["places", "NN", "AC", word(&file), "--out", "/dev/full"]).said(4);
    assert!(said.contains("/dev/full"), "{said}");
    for missing in ["no/such.fa", "/"] {
        run(&["places", "NN", "AC", missing]).said(4);
        run(&["places", "NN", word(&file), "--list", missing]).said(4);
    }
}
