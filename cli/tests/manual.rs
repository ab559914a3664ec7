//! The manual page and the completion for bash: their words are those of
//! `--help`.

mod common;

use common::{run, Scratch};
use std::io::{ErrorKind, Write};
use std::process::{Command, Stdio};

const COMMANDS: [&str; 4] = ["search", "resume", "status", "places"];

/// What the program prints, as text.
fn printed(words: &[&str]) -> String {
    String::from_utf8(run(words).printed()).expect("it is text")
}

/// The words of a text, with one blank between them.
fn words(text: &str) -> String {
    text.split_whitespace().collect::<Vec<&str>>().join(" ")
}

/// The sections of the page as a reader sees them: a title, and words. This
/// obeys none of what stands there for man, and only leaves it out.
fn sections(page: &str) -> Vec<(String, String)> {
    let mut sections: Vec<(String, String)> = Vec::new();
    for line in page.lines() {
        if let Some(title) = line.strip_prefix(".SH ") {
            sections.push((title.to_string(), String::new()));
        } else if !line.starts_with('.') {
            let mut line = line.to_string();
            for (escape, shown) in [
                ("\\fB", ""),
                ("\\fR", ""),
                ("\\&", ""),
                ("\\ ", " "),
                ("\\-", "-"),
                ("\\(aq", "'"),
                ("\\(ga", "`"),
                ("\\(ha", "^"),
                ("\\(ti", "~"),
                ("\\e", "\\"),
            ] {
                line = line.replace(escape, shown);
            }
            let (_, text) = sections.last_mut().expect("a title before all text");
            *text = words(&format!("{text} {line}"));
        }
    }
    sections
}

/// Holds sections to the texts of help, word for word.
fn holds_all(sections: &[(String, String)]) {
    let titles: Vec<&str> = sections.iter().map(|(title, _)| title.as_str()).collect();
    assert_eq!(
        titles,
        [
            "NAME",
            "SYNOPSIS",
            "DESCRIPTION",
            "SEARCH",
            "RESUME",
            "STATUS",
            "PLACES",
            "LIMITS",
            "EXIT STATUS"
        ]
    );
    let told = |title: &str| {
        let found = sections.iter().find(|(other, _)| other == title);
        &found.expect("a section").1
    };
    for command in COMMANDS {
        let text = printed(&[command, "--help"]);
        let text = words(text.strip_prefix("usage: ").expect("a usage line"));
        assert_eq!(told(&command.to_uppercase()), &text);
    }
    let all = printed(&["--help"]);
    let (first, rest) = all.split_once("\n\nusage: ").expect("a usage line");
    let name = first.strip_prefix("Tulfasheq: ").expect("a name");
    assert_eq!(format!("{}.", told("NAME")), format!("tulfasheq - {name}"));
    let mut whole = String::new();
    for paragraph in rest.split("\n\n").map(words) {
        let title = match paragraph.split_once(' ') {
            _ if paragraph.starts_with("It takes ") => "LIMITS",
            _ if paragraph.starts_with("It ends with ") => "EXIT STATUS",
            _ if paragraph.starts_with("tulfasheq search ") => "SYNOPSIS",
            _ => {
                whole = words(&format!("{whole} {paragraph}"));
                continue;
            }
        };
        assert_eq!(told(title), &paragraph);
    }
    assert_eq!(told("DESCRIPTION"), &whole);
}

#[test]
fn the_page_has_every_word_of_help_and_no_other() {
    let page = printed(&["help", "man"]);
    let version = env!("CARGO_PKG_VERSION");
    let first = format!(".TH TULFASHEQ 1 \"\" \"tulfasheq {version}\"\n");
    assert!(page.starts_with(&first), "{page}");
    holds_all(&sections(&page));
}

/// The page as groff shows it at a width, or nothing where there is no groff.
fn shown(page: &str, width: u32) -> Option<String> {
    let groff = Command::new("groff")
        .args([
            "-man",
            "-Tutf8",
            "-ww",
            "-P-cbou",
            &format!("-rLL={width}n"),
        ])
        .stdin(Stdio::piped())
        .stdout(Stdio::piped())
        .stderr(Stdio::piped())
        .spawn();
    let mut groff = match groff {
        Err(error) if error.kind() == ErrorKind::NotFound => return None,
        other => other.expect("groff starts"),
    };
    let mut input = groff.stdin.take().expect("a pipe");
    input.write_all(page.as_bytes()).expect("groff reads");
    drop(input);
    let output = groff.wait_with_output().expect("groff ends");
    assert_eq!(String::from_utf8_lossy(&output.stderr), "", "groff warns");
    assert!(output.status.success());
    Some(String::from_utf8(output.stdout).expect("it is text"))
}

#[test]
fn the_page_is_shown_whole_at_any_width() {
    let page = printed(&["help", "man"]);
    let mut texts = printed(&["--help"]);
    for command in COMMANDS {
        texts += &printed(&[command, "--help"]);
    }
    for width in [60, 80, 132] {
        let Some(text) = shown(&page, width) else {
            // Past the harness, which keeps what a test says that passes.
            let untried = "there is no groff here: how the page is shown was not tried";
            let _ = writeln!(std::io::stderr(), "{untried}");
            return;
        };
        let mut sections: Vec<(String, String)> = Vec::new();
        for line in text.lines() {
            // Examples alone stand as they are.
            let fits = line.chars().count() <= width as usize;
            let example = format!("\n    {}\n", line.trim());
            assert!(fits || texts.contains(&example), "{line}");
            if line.starts_with("TULFASHEQ(1)") || line.starts_with("tulfasheq ") {
                // The lines at the head and the foot of the page.
            } else if let Some((_, text)) = sections.last_mut().filter(|_| !starts(line)) {
                *text = words(&format!("{text} {line}"));
            } else if !line.is_empty() {
                sections.push((line.to_string(), String::new()));
            }
        }
        holds_all(&sections);
    }
}

/// Whether a line begins at the page's edge, as titles do.
fn starts(line: &str) -> bool {
    line.starts_with(|c: char| !c.is_whitespace())
}

/// What bash would complete the last of these words to: words, or `files` or
/// `folders`.
fn completed(scratch: &Scratch, typed: &[&str]) -> Vec<String> {
    let script = scratch.file("completion", printed(&["help", "bash"]));
    let asked = r#"
        source "$0" || exit
        compopt() {
            case $* in
            "-o default") COMPREPLY+=(files) ;;
            "-o dirnames") COMPREPLY+=(folders) ;;
            *) COMPREPLY+=("$*") ;;
            esac
        }
        COMP_WORDS=("$@") COMP_CWORD=$(($# - 1))
        _tulfasheq && printf '%s\n' "${COMPREPLY[@]}"
    "#;
    let output = Command::new("bash")
        .args(["--norc", "-c", asked])
        .arg(&script)
        .args(typed)
        .output()
        .expect("bash starts");
    assert_eq!(String::from_utf8_lossy(&output.stderr), "", "{typed:?}");
    let text = String::from_utf8(output.stdout).expect("it is text");
    let mut words: Vec<String> = text.split_whitespace().map(str::to_string).collect();
    words.sort();
    words
}

/// The options of a command, as its usage lines name them, and `--help`.
fn options(command: &str) -> Vec<String> {
    let text = printed(&[command, "--help"]);
    let usage = text.split("\n\n").next().unwrap_or("");
    let plain = usage.replace(['[', ']', '|'], " ");
    let mut options: Vec<String> = plain
        .split_whitespace()
        .filter(|word| word.starts_with("--"))
        .chain(["--help"])
        .map(str::to_string)
        .collect();
    options.sort();
    options.dedup();
    options
}

#[test]
fn bash_completes_every_option_of_help_and_no_other() {
    let scratch = Scratch::new();
    for command in COMMANDS {
        let options = options(command);
        for dashes in ["-", "--"] {
            let typed = ["tulfasheq", command, "x", dashes];
            assert_eq!(completed(&scratch, &typed), options, "{command}");
        }
        for option in &options {
            let typed = ["./tulfasheq", command, &option[..option.len() - 1]];
            assert!(completed(&scratch, &typed).contains(option), "{option}");
            let after = completed(&scratch, &["tulfasheq", command, option, ""]);
            let expected = match option.as_str() {
                "--out" | "--list" => vec!["files"],
                "--job" => vec!["folders"],
                "--mixed" | "--from" | "--rows" => vec![],
                _ if ["search", "places"].contains(&command) => vec!["files"],
                _ => vec!["folders"],
            };
            assert_eq!(after, expected, "{command} {option}");
        }
    }
}

#[test]
fn bash_completes_commands_and_names() {
    let scratch = Scratch::new();
    for (typed, expected) in [
        (
            &[""][..],
            "--help --version help places resume search status",
        ),
        (&["-"], "--help --version"),
        (&["s"], "search status"),
        (&["x"], ""),
        (&["help", ""], "bash man places resume search status"),
        (&["--help", "m"], "man"),
        (&["search", "NN", "1", "a"], "files"),
        (&["search", "-o", ""], "files"),
        (&["search", "--out", "="], "files"),
        (&["search", "--out", "=", "x"], "files"),
        (&["search", "--job", "=", "x"], "folders"),
        (&["search", "--mixed", "="], ""),
        (&["resume", "a"], "folders"),
        (&["status", ""], "folders"),
        (&["nothing", ""], ""),
        (&["--version", ""], ""),
    ] {
        let typed = [&["tulfasheq"], typed].concat();
        assert_eq!(completed(&scratch, &typed).join(" "), expected, "{typed:?}");
    }
}
