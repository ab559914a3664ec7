//! Command lines that cannot be read, and help.

mod common;
#[path = "common/within.rs"]
mod within;

use common::{run, Scratch};
use std::ffi::{OsStr, OsString};
use std::os::unix::ffi::{OsStrExt, OsStringExt};
use within::said;

const COMMANDS: [&str; 4] = ["search", "resume", "status", "places"];

/// What is said of words that cannot be read.
fn usage(words: &[&str]) -> String {
    said(&Scratch::new(), words, 2)
}

#[test]
fn words_that_cannot_be_read_are_told() {
    let search = ["search", "NN", "1", "a.fa"];
    let with = |more: &[&'static str]| [&search[..], more].concat();
    for (words, expected) in [
        (
            vec!["find", "NN"],
            "there is no command find: there are search, resume, status, places and help",
        ),
        (
            vec!["help", "me"],
            "there is no command me: there are search, resume, status and places, and man and bash",
        ),
        (vec!["help", "search", "NN"], "help takes one command"),
        (
            with(&["--fast"]),
            "there is no option --fast (tulfasheq search --help)",
        ),
        (
            with(&["--fast=1"]),
            "there is no option --fast=1 (tulfasheq search --help)",
        ),
        (
            with(&["--quiet=yes"]),
            "there is no option --quiet=yes (tulfasheq search --help)",
        ),
        (
            with(&["--bed"]),
            "--bed is no option here (tulfasheq search --help)",
        ),
        (
            vec!["status", "job", "--quiet"],
            "--quiet is no option here (tulfasheq status --help)",
        ),
        (with(&["--quiet", "--quiet"]), "--quiet stands there twice"),
        (
            with(&["--out", "x", "--out=y"]),
            "--out stands there twice",
        ),
        (with(&["--mixed"]), "--mixed wants a value after it"),
        (
            with(&["--out", "--mixed=1"]),
            "--out wants a value after it",
        ),
        (with(&["--out="]), "--out is an empty word"),
        (with(&["--job", ""]), "--job is an empty word"),
        (vec!["search", "NN", "1", ""], "FILE.fa is an empty word"),
        (vec!["resume", ""], "DIR is an empty word"),
        (
            vec!["search", "NN", "1"],
            "search takes TEMPLATE QUORUM FILE.fa, and there are 2 words (tulfasheq search --help)",
        ),
        (
            with(&["b.fa"]),
            "search takes TEMPLATE QUORUM FILE.fa, and there are 4 words (tulfasheq search --help)",
        ),
        (
            vec!["search", "--", "--quiet"],
            "search takes TEMPLATE QUORUM FILE.fa, and there is 1 word (tulfasheq search --help)",
        ),
        (
            vec!["resume"],
            "resume takes DIR, and there are 0 words (tulfasheq resume --help)",
        ),
        (
            vec!["status", "a", "b"],
            "status takes DIR, and there are 2 words (tulfasheq status --help)",
        ),
        (
            vec!["places", "--job", "a", "b"],
            "places takes no word beside its options, and there is 1 word (tulfasheq places --help)",
        ),
        (
            vec!["places", "--from", "-1", "N", "A", "a.fa"],
            "--from wants a number, not \"-1\"",
        ),
    ] {
        assert_eq!(usage(&words), format!("tulfasheq: {expected}\n"), "{words:?}");
    }
}

#[test]
fn words_that_are_close_to_others_are_told() {
    for (words, expected) in [
        (
            &["serach", "NN"][..],
            "there is no command serach: did you mean search?",
        ),
        (
            &["--verison"],
            "there is no command --verison: did you mean --version?",
        ),
        (&["-v"], "there is no command -v: did you mean -V?"),
        (
            &["help", "stat"],
            "there is no command stat: did you mean status?",
        ),
        (
            &["help", "mann"],
            "there is no command mann: did you mean man?",
        ),
        (
            &["places", "--gff3"],
            "there is no option --gff3: did you mean --gff? (tulfasheq places --help)",
        ),
        (
            &["search", "--jobs=x"],
            "there is no option --jobs=x: did you mean --job? (tulfasheq search --help)",
        ),
        // One that is close, but not taken by this command, is not meant.
        (
            &["resume", "--jobs=x"],
            "there is no option --jobs=x (tulfasheq resume --help)",
        ),
        (
            &["search", "-H"],
            "there is no option -H: did you mean -h? (tulfasheq search --help)",
        ),
        (
            &["search", "-out", "x"],
            "there is no option -out: did you mean --out? (tulfasheq search --help)",
        ),
        (
            &["search", "-oTABLE"],
            "there is no option -oTABLE: did you mean -o TABLE? (tulfasheq search --help)",
        ),
        (
            &["search", "-o=TABLE"],
            "there is no option -o=TABLE: did you mean -o TABLE? (tulfasheq search --help)",
        ),
        (
            &["status", "-oTABLE"],
            "there is no option -oTABLE (tulfasheq status --help)",
        ),
        (
            &["search", "-x"],
            "there is no option -x (tulfasheq search --help)",
        ),
    ] {
        assert_eq!(
            usage(words),
            format!("tulfasheq: {expected}\n"),
            "{words:?}"
        );
    }
}

#[test]
fn short_options_are_the_long_ones() {
    let scratch = Scratch::new();
    scratch.file("a.fa", ">a\nACGT\n");
    let search = ["search", "NN", "1", "a.fa"];
    let table = |more: &[&str]| {
        let words = [&search[..], more].concat();
        within::ran(&mut within::within(&scratch, &words))
    };
    let printed = table(&["--out", "-"]);
    assert_eq!(printed.status, Some(0), "{}", printed.err);
    assert_eq!(table(&["-o", "-"]).out, printed.out);
    for words in [["-o", "short.tsv"], ["--out", "long.tsv"]] {
        assert_eq!(table(&words).out, b"");
        let written = std::fs::read(scratch.path(words[1])).expect("a table");
        assert_eq!(written, printed.out);
    }
    for words in [&["-o"][..], &["-o", "--quiet"]] {
        let words = [&search[..], words].concat();
        assert_eq!(usage(&words), "tulfasheq: --out wants a value after it\n");
    }
    let twice = [&search[..], &["-o", "x", "--out", "y"]].concat();
    assert_eq!(usage(&twice), "tulfasheq: --out stands there twice\n");
    assert_eq!(run(&["-V"]).printed(), run(&["--version"]).printed());
    for command in ["search", "resume"] {
        assert!(help(command).contains(" -o FILE"), "{command}");
    }
    let all = String::from_utf8(run(&["help"]).printed()).expect("help is text");
    assert!(all.contains(" -h\n") && all.contains(" -V\n"), "{all}");
}

#[test]
fn without_a_command_all_of_them_are_told() {
    for words in [&[][..], &[""]] {
        let all = String::from_utf8(run(&["help"]).printed()).expect("help is text");
        assert_eq!(usage(words), format!("tulfasheq: no command\n{all}\n"));
    }
}

#[test]
fn words_that_are_no_text_are_told_or_taken() {
    let scratch = Scratch::new();
    let odd = OsStr::from_bytes(b"odd\xff");
    let of = |words: &[&OsStr]| said(&scratch, words, 2);
    let [search, nn, one, file] = ["search", "NN", "1", "a.fa"].map(OsStr::new);
    let told = |name: &str| format!("tulfasheq: {name} odd\u{fffd} is no text\n");
    assert_eq!(of(&[search, odd, one, file]), told("the template"));
    assert_eq!(of(&[search, nn, odd, file]), told("the quorum"));
    let mixed = OsStr::new("--mixed");
    assert_eq!(of(&[search, nn, one, file, mixed, odd]), told("--mixed"));
    assert!(of(&[odd]).starts_with("tulfasheq: there is no command odd\u{fffd}: "));
    let option = OsStr::from_bytes(b"--quiet\xff");
    assert_eq!(
        of(&[search, nn, one, file, option]),
        "tulfasheq: there is no option --quiet\u{fffd} (tulfasheq search --help)\n"
    );
    // A path need not be text.
    std::fs::write(scratch.path("").join(odd), ">a\nACGT\n").expect("a file");
    let out = OsString::from_vec(b"--out=out\xff".to_vec());
    let words = [search, nn, one, odd, &out];
    let ran = within::ran(&mut within::within(&scratch, &words));
    assert_eq!(ran.printed(), b"");
    assert!(scratch
        .path("")
        .join(OsStr::from_bytes(b"out\xff"))
        .exists());
}

/// A command's help.
fn help(command: &str) -> String {
    let printed = run(&[command, "--help"]).printed();
    String::from_utf8(printed).expect("help is text")
}

#[test]
fn every_command_has_help() {
    for command in COMMANDS {
        let text = help(command);
        assert!(text.starts_with(&format!("usage: tulfasheq {command} ")));
        for words in [
            vec!["help", command],
            vec!["--help", command],
            vec![command, "-h"],
            vec![command, "NN", "--out", "x", "--help", "--nonsense"],
        ] {
            assert_eq!(run(&words).printed(), text.as_bytes(), "{words:?}");
        }
    }
    let version = format!("tulfasheq {}\n", env!("CARGO_PKG_VERSION"));
    assert_eq!(run(&["--version"]).printed(), version.as_bytes());
    let all = run(&["--help"]).printed();
    for word in ["help", "-h"] {
        assert_eq!(run(&[word]).printed(), all);
    }
    let all = String::from_utf8(all).expect("help is text");
    for command in COMMANDS {
        assert!(all.contains(&format!("tulfasheq {command} ")), "{command}");
    }
    for status in 0..=8 {
        let line = format!("\n  {status}  ");
        assert!(all.contains(&line), "status {status}");
    }
}

/// The options that the program knows, as its source names them.
fn options() -> Vec<&'static str> {
    let source = include_str!("../src/words/sorted.rs");
    let words = source.split('"').skip(1).step_by(2);
    let is_option = |word: &&str| {
        let name = word.strip_prefix("--").unwrap_or("");
        !name.is_empty() && name.bytes().all(|b| b.is_ascii_lowercase())
    };
    let mut options: Vec<&str> = words.filter(is_option).collect();
    options.sort_unstable();
    options.dedup();
    options.retain(|option| *option != "--help");
    options
}

#[test]
fn usage_lines_name_the_options_that_a_command_takes_and_no_others() {
    let options = options();
    assert!(options.len() >= 10, "{options:?}");
    for command in COMMANDS {
        let text = help(command);
        let usage_lines = text.split("\n\n").next().unwrap_or("");
        for option in &options {
            // No command takes seven words, so each is refused: for the option
            // where it does not take it.
            let words = [command, option, "1", "1", "1", "1", "1", "1", "1"];
            let taken = !usage(&words).contains("is no option here");
            assert_eq!(usage_lines.contains(option), taken, "{command} {option}");
        }
    }
}
