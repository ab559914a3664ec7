//! The usage lines of a command's help: the options that it takes, and which
//! known word an unknown one is close to.

use super::{text, Of};
use crate::words::takes_value;

/// The words of a command's usage lines, brackets and bars left out.
fn words(of: Of) -> impl Iterator<Item = &'static str> {
    let lines = text(of).split("\n\n").next().unwrap_or("");
    lines
        .split(|c: char| c.is_whitespace() || "[]|".contains(c))
        .filter(|word| !word.is_empty())
}

/// The options that a command takes, each once, with the name of the value
/// that one is followed by.
pub fn options(of: Of) -> Vec<(&'static str, Option<&'static str>)> {
    let mut options: Vec<(&str, Option<&str>)> = Vec::new();
    let mut words = words(of);
    while let Some(word) = words.next() {
        if word.starts_with("--") {
            let value = takes_value(word).then(|| words.next()).flatten();
            if options.iter().all(|(name, _)| *name != word) {
                options.push((word, value));
            }
        }
    }
    options
}

/// Whether a command takes a word of this name, such as DIR, beside options.
pub fn takes(of: Of, name: &str) -> bool {
    let mut words = words(of);
    while let Some(word) = words.next() {
        if takes_value(word) {
            words.next();
        } else if word == name {
            return true;
        }
    }
    false
}

/// The known word that an unknown one was meant to be, if it is close to one:
/// at most two letters wrong, and less than half of them.
pub fn meant<'a>(word: &str, known: impl IntoIterator<Item = &'a str>) -> Option<&'a str> {
    known
        .into_iter()
        .filter_map(|other| {
            let (name, known) = (bare(word), bare(other));
            // Of one letter nothing is left to be close to but its case.
            let wrong = if name.eq_ignore_ascii_case(known) {
                0
            } else {
                letters_wrong(name.as_bytes(), known.as_bytes())
            };
            let close = wrong <= 2 && 2 * wrong < name.len().max(known.len());
            close.then_some((wrong, other))
        })
        .min_by_key(|(wrong, _)| *wrong)
        .map(|(_, other)| other)
}

/// A name without the strokes before it.
fn bare(word: &str) -> &str {
    word.trim_start_matches('-')
}

/// How many letters are missing, too many, other ones, or exchanged with the
/// next, at least, between two names.
fn letters_wrong(one: &[u8], other: &[u8]) -> usize {
    // A cell for the first i letters of the one and the first j of the other.
    let mut cells = vec![vec![0; other.len() + 1]; one.len() + 1];
    for i in 0..=one.len() {
        for j in 0..=other.len() {
            if i == 0 || j == 0 {
                cells[i][j] = i + j;
                continue;
            }
            let differ = usize::from(one[i - 1] != other[j - 1]);
            let mut least = cells[i - 1][j - 1] + differ;
            least = least.min(cells[i - 1][j] + 1).min(cells[i][j - 1] + 1);
            if i > 1 && j > 1 && one[i - 2..i] == [other[j - 1], other[j - 2]] {
                least = least.min(cells[i - 2][j - 2] + 1);
            }
            cells[i][j] = least;
        }
    }
    cells[one.len()][other.len()]
}

#[cfg(test)]
mod tests {
    use super::{letters_wrong, meant, options, takes};
    use crate::help::Of;

    #[test]
    fn usage_lines_are_read() {
        assert_eq!(
            options(Of::Resume),
            [("--out", Some("FILE")), ("--quiet", None)]
        );
        assert!(options(Of::Status).is_empty());
        assert!(options(Of::Places).contains(&("--job", Some("DIR"))));
        assert!(options(Of::Places).contains(&("--gff", None)));
        assert!(takes(Of::Status, "DIR") && !takes(Of::Status, "FILE.fa"));
        assert!(takes(Of::Places, "FILE.fa") && !takes(Of::Places, "DIR"));
    }

    #[test]
    fn letters_that_are_wrong_are_counted() {
        for (one, other, wrong) in [
            ("", "", 0),
            ("", "job", 3),
            ("gff3", "gff", 1),
            ("serach", "search", 1),
            ("stat", "status", 2),
            ("quite", "quiet", 1),
            ("bed", "tsv", 3),
        ] {
            for (a, b) in [(one, other), (other, one)] {
                assert_eq!(letters_wrong(a.as_bytes(), b.as_bytes()), wrong, "{a} {b}");
            }
        }
    }

    #[test]
    fn a_close_word_is_meant_and_no_other() {
        let commands = ["search", "resume", "status", "places", "help"];
        for (word, expected) in [
            ("serach", Some("search")),
            ("Search", Some("search")),
            ("place", Some("places")),
            ("stat", Some("status")),
            ("me", None),
            ("", None),
            ("find", None),
        ] {
            assert_eq!(meant(word, commands), expected, "{word}");
        }
        let options = ["--out", "--gff", "--job", "-h", "-V"];
        for (word, expected) in [
            ("--gff3", Some("--gff")),
            ("-out", Some("--out")),
            ("--jbo", Some("--job")),
            ("-v", Some("-V")),
            ("-x", None),
            ("--bam", None),
        ] {
            assert_eq!(meant(word, options), expected, "{word}");
        }
    }
}
