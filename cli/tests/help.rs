//! What `--help` tells of a search is so.

mod common;

use common::{run, word, Scratch};

/// The help of a command, or of all of them.
fn help(command: &str) -> String {
    let words = ["help", command];
    let words = if command.is_empty() {
        &words[..1]
    } else {
        &words
    };
    String::from_utf8(run(words).printed()).expect("it is text")
}

/// The words of a command's help, with one blank between them.
fn words(command: &str) -> String {
    let text = help(command);
    text.split_whitespace().collect::<Vec<&str>>().join(" ")
}

#[test]
fn all_commands_are_told_with_the_words_that_each_takes() {
    let all = help("");
    for command in ["search", "resume", "status", "places"] {
        // Up to the options.
        let text = help(command);
        let end = text.find(" [--").or(text.find('\n')).expect("a usage line");
        let usage = text[..end].strip_prefix("usage: ").expect("a usage line");
        assert!(all.contains(&format!(" {usage}  ")), "{usage}");
    }
}

#[test]
fn the_last_line_and_the_warnings_of_a_search_are_told_as_they_are() {
    let scratch = Scratch::new();
    let file = scratch.file("a.fa", ">a\nACGT\n>b\n");
    let ran = run(&["search", "NN", "1", word(&file), "--quiet"]);
    let table = String::from_utf8(ran.out).expect("text");
    let last = table.lines().last().expect("a last line");
    let text = help("search");
    let example = text.split('`').nth(1).expect("an example");
    let names = |line: &str| -> Vec<String> {
        let parts = line.split(", ").take(3);
        let name = |part: &str| part.rsplit_once(' ').map(|(name, _)| name.to_string());
        parts.filter_map(name).collect()
    };
    assert_eq!(names(example), names(last));
    assert!(example.ends_with(", ..."), "{example}");
    let warning = "1 of its 2 sequences is empty";
    assert!(ran.err.contains(warning), "{}", ran.err);
    let quiet = "--quiet shows no progress, and tells only warnings and what goes wrong";
    for command in ["search", "resume"] {
        assert!(words(command).contains(quiet), "{command}");
    }
}

#[test]
fn the_file_beside_a_table_is_told() {
    let text = words("search");
    for told in [
        "so its folder must take new files.",
        "A program that is killed leaves that file, and the next one writes it anew.",
    ] {
        assert!(text.contains(told), "{told}");
    }
}
