//! What `--help` prints, and what is made from the same words: the manual page
//! and the completion for bash.

mod completion;
mod manual;
pub mod usage;

use crate::failure::Answer;
use crate::out::Out;

/// What help is asked about.
#[derive(Clone, Copy, Debug, PartialEq, Eq)]
pub enum Of {
    All,
    Search,
    Resume,
    Status,
    Places,
    Man,
    Bash,
}

/// The commands that have a text of their own.
pub const COMMANDS: [(&str, Of); 4] = [
    ("search", Of::Search),
    ("resume", Of::Resume),
    ("status", Of::Status),
    ("places", Of::Places),
];

/// What is made from all texts.
pub const MADE: [(&str, Of); 2] = [("man", Of::Man), ("bash", Of::Bash)];

/// Prints help.
pub fn print(of: Of) -> Answer<()> {
    let made = match of {
        Of::Man => manual::page(),
        Of::Bash => completion::script(),
        _ => text(of).to_string(),
    };
    Out::default().open()?.write(made.as_bytes())
}

/// Prints the program's name and version.
pub fn version() -> Answer<()> {
    let version = format!("{VERSION}\n");
    Out::default().open()?.write(version.as_bytes())
}

/// The program's name and version.
const VERSION: &str = concat!("tulfasheq ", env!("CARGO_PKG_VERSION"));

/// The text as it was written, of a command or of all. What is made from all
/// texts has none of its own, and begins with this one.
pub fn text(of: Of) -> &'static str {
    match of {
        Of::All | Of::Man | Of::Bash => include_str!("help/all.txt"),
        Of::Search => include_str!("help/search.txt"),
        Of::Resume => include_str!("help/resume.txt"),
        Of::Status => include_str!("help/status.txt"),
        Of::Places => include_str!("help/places.txt"),
    }
}

#[cfg(test)]
mod tests {
    use super::{text, Of, COMMANDS};
    use crate::counted::{grouped, of};
    use crate::sequences::MOST_BYTES;
    use library::limits;

    #[test]
    fn the_limits_are_those_of_the_library() {
        let words: Vec<&str> = text(Of::All).split_whitespace().collect();
        let words = words.join(" ");
        for told in [
            format!("sequences 1 to {} ", grouped(limits::SEQUENCES as u64)),
            format!(", at most {} ", of(limits::LETTERS as u64, "letter")),
            format!("template 1 to {} components ", limits::COMPONENTS),
            format!(" of 1 to {} letters each", limits::LENGTH),
            format!(", at most {} in all ", limits::MOTIF),
            format!(" ({} with --mixed)", limits::MIXED_MOTIF),
            format!(" gap 0 to {} letters", limits::GAP),
            format!(" file at most {} MiB", MOST_BYTES >> 20),
        ] {
            assert!(words.contains(&told), "{told}");
        }
        assert_eq!(MOST_BYTES % (1 << 20), 0, "whole MiB");
    }

    #[test]
    fn texts_are_plain_and_fit_a_terminal() {
        for of in COMMANDS.map(|(_, of)| of).into_iter().chain([Of::All]) {
            assert!(text(of).is_ascii() && text(of).ends_with('\n'), "{of:?}");
            for line in text(of).lines() {
                assert!(line.len() <= 80, "{line}");
                assert!(!line.contains('\t') && line.trim_end() == line, "{line}");
            }
        }
    }
}
