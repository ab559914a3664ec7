//! Completion for bash, made from the usage lines of the commands.

use super::{usage, Of, COMMANDS, MADE};

/// What bash completes a word to.
#[derive(Clone, Copy, Debug, PartialEq, Eq)]
enum Kind {
    Files,
    Folders,
    Nothing,
}

/// What a value is, by its name in a usage line.
fn kind(value: &str) -> Kind {
    if value.starts_with("DIR") {
        Kind::Folders
    } else if value.starts_with("FILE") || value.contains('.') {
        Kind::Files
    } else {
        Kind::Nothing
    }
}

/// The script that bash reads.
pub fn script() -> String {
    include_str!("completion.bash")
        .replace("{COMMANDS}", &COMMANDS.map(|(name, _)| name).join(" "))
        .replace("{MADE}", &MADE.map(|(name, _)| name).join(" "))
        .replace("{FILES}", &followed_by(Kind::Files))
        .replace("{FOLDERS}", &followed_by(Kind::Folders))
        .replace("{NOTHING}", &followed_by(Kind::Nothing))
        .replace("{OF_COMMANDS}", &COMMANDS.map(of_command).join("\n"))
}

/// A line for a command: its options, and what its other words are.
fn of_command((name, of): (&str, Of)) -> String {
    let mut words: Vec<&str> = usage::options(of).iter().map(|(name, _)| *name).collect();
    words.push("--help");
    let names = if usage::takes(of, "DIR") {
        "dirnames"
    } else {
        "default"
    };
    let words = words.join(" ");
    format!("        {name}) words='{words}' names={names} ;;")
}

/// The options that are followed by a value of a kind, as bash's `case` takes
/// them.
fn followed_by(wanted: Kind) -> String {
    let mut names = Vec::new();
    for (_, of) in COMMANDS {
        for (name, value) in usage::options(of) {
            if value.is_some_and(|value| kind(value) == wanted) && !names.contains(&name) {
                names.push(name);
            }
        }
    }
    if names.contains(&"--out") {
        names.push("-o");
    }
    names.join(" | ")
}
