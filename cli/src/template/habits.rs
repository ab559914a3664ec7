//! Templates as other tools write them: what they would be here. Nothing of it
//! is taken; it is only told.

use super::read;
use crate::failure::Failure;
use crate::quorum::Quorum;
use std::path::Path;

/// The letters that stand for any letter in other tools. The first of them that
/// a text has makes its components; the others are then letters between them.
const ANY: [&[char]; 4] = [&['N'], &['n'], &['x', 'X'], &['.']];

/// The letters of motifs, N apart.
const MOTIF: &str = "ACGTURYKMSWBDHV";

/// The most characters that a template is written in here: the longest that a
/// search takes has far fewer.
const MOST: usize = 120;

/// What a text would be here.
#[derive(Debug, PartialEq, Eq)]
enum Written {
    /// This template.
    Whole(String),
    /// One with such a gap; what stands beside it can be read in two ways.
    Gap(usize, usize),
}

/// What cannot be read, with how it would be written here.
pub fn told(text: &str, failure: Failure) -> Failure {
    match hint(text) {
        Some(hint) => failure.and(hint),
        None => failure,
    }
}

/// How a text would be written here, or what it is in the place of a template.
fn hint(text: &str) -> Option<String> {
    let order = "the template comes first, then the quorum, and the file last";
    if Quorum::read(text).is_ok() {
        return Some(format!(
            "This is a quorum: {order} (tulfasheq search --help)."
        ));
    }
    if Path::new(text).is_file() {
        return Some("This is a file: the template comes first, and the file last.".to_string());
    }
    match rewritten(text) {
        Some(Written::Whole(written)) => return Some(format!("Write it {written}.")),
        Some(Written::Gap(low, high)) => {
            let range = range(low, high);
            return Some(format!(
                "A gap of {low} to {high} letters is written {range}."
            ));
        }
        None => {}
    }
    let shape = match rewritten(&shape(text)?)? {
        // An N of a motif may be meant as one of a gap.
        Written::Whole(shape) if !text.contains(['N', 'n']) => format!(", {shape}"),
        _ => String::new(),
    };
    Some(format!(
        "These are a motif's letters: a template has runs of N in their place{shape}.\nWhere a motif occurs is told by tulfasheq places MOTIF FILE.fa."
    ))
}

/// A motif with N for each letter.
fn shape(motif: &str) -> Option<String> {
    let is = |c: char| MOTIF.contains(c.to_ascii_uppercase());
    let shape = |c: char| if is(c) || c == 'n' { 'N' } else { c };
    motif
        .contains(is)
        .then(|| motif.chars().map(shape).collect())
}

/// What the text would be here, where it can be read in one way alone: another
/// template than was meant would be another search.
fn rewritten(text: &str) -> Option<Written> {
    let runs = ANY.iter().find(|any| text.contains(**any))?;
    let mut gap = None;
    let written = written(text, runs, &mut gap)?;
    let plain = written.len() <= MOST && read::components(&written).is_ok();
    plain.then_some(match gap {
        Some((low, high)) => Written::Gap(low, high),
        None => Written::Whole(written),
    })
}

/// The text with its runs and gaps as they are written here. The last gap that
/// may be a part of the run before it is left in `doubt`.
fn written(text: &str, runs: &[char], doubt: &mut Option<(usize, usize)>) -> Option<String> {
    let mut rest = text.trim_start();
    let mut to = String::new();
    while let Some(c) = rest.chars().next() {
        if !ANY.iter().any(|any| any.contains(&c)) {
            let (low, high, after) = gap(rest, &['['])?;
            to.push_str(&range(low, high));
            rest = after.trim_start();
            continue;
        }
        let component = runs.contains(&c);
        let run = rest.chars().take_while(|other| *other == c).count();
        let behind = &rest[run..];
        rest = behind.trim_start();
        let spaced = behind.len() > rest.len();
        let number = number(behind);
        let times = number.map(|(number, after)| (number, number, after));
        let (low, high, after) = match times.or_else(|| gap(rest, &['{', '('])) {
            // Letters that stand apart, or a few small ones among large ones,
            // may have a gap between them, or be one.
            None if component && spaced && rest.starts_with(runs) => return None,
            None if !component && !matches!(c, 'x' | 'X') => return None,
            None => (run, run, rest),
            // A gap in other brackets, or how often the letter before stands.
            Some((low, high, after)) if component && low < high => {
                *doubt = Some((low, high));
                to.push_str(&"N".repeat(run));
                to.push_str(&range(low, high));
                rest = after.trim_start();
                continue;
            }
            // Behind one letter a number says how often it stands there: behind
            // several, or before others, it may be a gap as well.
            Some((_, _, after)) if run > 1 || component && after.trim_start().starts_with(runs) => {
                return None
            }
            Some(times) => times,
        };
        rest = after.trim_start();
        if component {
            to.push_str(&"N".repeat(low.min(MOST + 1)));
        } else {
            to.push_str(&range(low, high));
        }
    }
    Some(to)
}

/// A gap as it is written here.
fn range(low: usize, high: usize) -> String {
    format!("[{low},{high}]")
}

/// The two numbers of a gap in one of these brackets, and the text after it.
/// One number is both; white space between two is as good as a comma.
fn gap<'a>(text: &'a str, brackets: &[char]) -> Option<(usize, usize, &'a str)> {
    let (_, end) = [('[', ']'), ('{', '}'), ('(', ')')]
        .into_iter()
        .find(|(begin, _)| brackets.contains(begin) && text.starts_with(*begin))?;
    let (low, rest) = number(text[1..].trim_start())?;
    let behind = rest.trim_start();
    if let Some(after) = behind.strip_prefix(end) {
        return Some((low, low, after));
    }
    let between = ["..", ",", "-", ":", ";", "\u{2013}"];
    let next = match between.iter().find_map(|mark| behind.strip_prefix(mark)) {
        Some(next) => next.trim_start(),
        // A number takes all its digits: what follows at once is none.
        None => behind,
    };
    let (high, rest) = number(next)?;
    let after = rest.trim_start().strip_prefix(end)?;
    (low <= high).then_some((low, high, after))
}

/// A number, also with zeros before it, and the text after it.
fn number(text: &str) -> Option<(usize, &str)> {
    let end = text
        .find(|c: char| !c.is_ascii_digit())
        .unwrap_or(text.len());
    Some((text[..end].parse().ok()?, &text[end..]))
}

#[cfg(test)]
mod tests {
    use super::{rewritten, shape, Written};

    #[test]
    fn habits_of_other_tools_are_written_as_here() {
        for (text, written) in [
            ("nnn[0,3]nn", "NNN[0,3]NN"),
            ("NNN[3]NN", "NNN[3,3]NN"),
            ("NNN[0-3]NN", "NNN[0,3]NN"),
            ("NNN[0..3]NN", "NNN[0,3]NN"),
            ("NNN [0,3] NN", "NNN[0,3]NN"),
            ("NNN[0, 3]NN", "NNN[0,3]NN"),
            ("NNN[ 0 - 3 ]NN ", "NNN[0,3]NN"),
            ("N[0 3]N", "N[0,3]N"),
            ("NNN[00,03]NN", "NNN[0,3]NN"),
            ("N{3}[0,3]N{2}", "NNN[0,3]NN"),
            ("N3[0,3]N2", "NNN[0,3]NN"),
            ("N{3}.{0,3}N{2}", "NNN[0,3]NN"),
            ("N(3) [0,3] N( 2 )", "NNN[0,3]NN"),
            ("xxx[0,3]xx", "NNN[0,3]NN"),
            ("...[0,3]..", "NNN[0,3]NN"),
            ("NNN.{0,3}NN", "NNN[0,3]NN"),
            ("NNNx(0,3)NN", "NNN[0,3]NN"),
            ("NNNxxxNN", "NNN[3,3]NN"),
            ("NNN xxx NN", "NNN[3,3]NN"),
            ("NNNn17NN", "NNN[17,17]NN"),
            ("N[0,3]N", "N[0,3]N"),
        ] {
            let expected = Some(Written::Whole(written.to_string()));
            assert_eq!(rewritten(text), expected, "{text}");
        }
    }

    #[test]
    fn a_gap_that_may_be_a_part_of_the_run_is_told_alone() {
        for text in ["NNN{0,3}NN", "NNN(0,3)NN", "N{0,3}NN", "NNN {0 3} NN"] {
            assert_eq!(rewritten(text), Some(Written::Gap(0, 3)), "{text}");
        }
    }

    #[test]
    fn what_has_no_plain_meaning_is_not_written() {
        for text in [
            "",
            "[0,3]NN",
            "NN[0,3]",
            "NN[0,3)N",
            "NN[,3]N",
            "NN[-1,3]N",
            "NN[3",
            "NN[3,0]N",
            "NN[0,1,2]N",
            "NN[0,1][0,1]N",
            "NNä",
            "NN3",
            "NNN/NN",
            // Numbers that stand apart.
            "N[1 0,3]N",
            "N[0,1 3]N",
            "N[0 1 3]N",
            "N1 2[0,3]N",
            "N 3[0,3]N",
            // How often the last letter stands there, or a gap.
            "NN{2}N",
            "NN(2)N",
            "NN {2} N",
            "N{2}N",
            "N2N",
            "NNxx{2}N",
            "NNxx(0,3)N",
            // A gap, or one run.
            "NNN NN",
            "NNNnnNN",
            "nNN[0,3]NN",
            "NNNnn",
            "NNNxx",
            "NNN...NN",
            // Perhaps one, or one that may be missing.
            "NNN?NN",
            "NNN_NN",
        ] {
            assert_eq!(rewritten(text), None, "{text}");
        }
    }

    #[test]
    fn a_motif_has_a_shape() {
        assert_eq!(shape("ACG[0,3]ta").as_deref(), Some("NNN[0,3]NN"));
        assert_eq!(shape("ACn[0,3]ta").as_deref(), Some("NNN[0,3]NN"));
        assert_eq!(shape("[0,3]"), None);
        assert_eq!(shape("NN[0,3]"), None);
    }
}
