//! The text that the printing program reads.

use crate::profile::Profile;
use crate::refusal::Refusal;
use crate::template::{Component, Template};

/// "Input over 60,000 bytes: refusal 18, line 0."
const MOST_BYTES: usize = 60_000;
/// "a number there has 1 to 3 digits"
const MOST_RANGE_DIGITS: usize = 3;
/// "the quorum 1 to 5"
const MOST_QUORUM_DIGITS: usize = 5;

/// What the text says.
#[derive(Clone, Debug, PartialEq, Eq)]
pub(crate) struct Text {
    pub template: Template,
    pub quorum: u64,
    pub letters: Vec<u8>,
    pub lengths: Vec<u32>,
}

/// A line without its end, and whether it had one.
struct Line<'a> {
    bytes: &'a [u8],
    ended: bool,
}

/// "each line ended by byte 10". Bytes after the last such byte are a line
/// without its end.
fn lines(input: &[u8]) -> Vec<Line<'_>> {
    let mut lines = Vec::new();
    for piece in input.split_inclusive(|byte| *byte == 10) {
        lines.push(match piece.strip_suffix(&[10]) {
            Some(bytes) => Line { bytes, ended: true },
            None => Line {
                bytes: piece,
                ended: false,
            },
        });
    }
    lines
}

/// "It reads standard input: template text, quorum, then one sequence a
/// line." "A malformed or missing first or second line, or a last line
/// without its end, is 18 with that line's number, the lowest if several,
/// and comes before all others."
pub(crate) fn read(input: &[u8]) -> Result<Text, Refusal> {
    if input.len() > MOST_BYTES {
        return Err(Refusal::at(Refusal::TEXT_LINE, 0));
    }
    let lines = lines(input);
    let template = lines
        .first()
        .filter(|line| line.ended)
        .and_then(|line| read_template(line.bytes))
        .ok_or(Refusal::at(Refusal::TEXT_LINE, 1))?;
    let quorum = lines
        .get(1)
        .filter(|line| line.ended)
        .and_then(|line| read_quorum(line.bytes))
        .ok_or(Refusal::at(Refusal::TEXT_LINE, 2))?;
    let mut letters = Vec::new();
    let mut lengths = Vec::new();
    for (number, line) in (1..).zip(&lines).skip(2) {
        if !line.ended {
            return Err(Refusal::at(Refusal::TEXT_LINE, number));
        }
        letters.extend(line.bytes);
        lengths.push(line.bytes.len() as u32);
    }
    Ok(Text {
        template,
        quorum,
        letters,
        lengths,
    })
}

/// "Template text is runs of at least one N with [l,u] between." A run longer
/// than a component can say is kept at the longest one: both are above 12. The
/// printing program has the exact profile alone.
fn read_template(line: &[u8]) -> Option<Template> {
    let mut components = Vec::new();
    // "The first component's range is 0, 0."
    let mut range = (0, 0);
    let mut left = line;
    loop {
        let run = left.iter().take_while(|byte| **byte == b'N').count();
        if run == 0 {
            return None;
        }
        let length = u8::try_from(run).unwrap_or(u8::MAX);
        components.push(Component {
            length,
            low: range.0,
            high: range.1,
            allowance: 0,
        });
        left = left.get(run..)?;
        if left.is_empty() {
            return Some(Template {
                profile: Profile::Exact,
                components,
            });
        }
        (range, left) = read_range(left)?;
    }
}

/// "[l,u]" at the beginning, and what is left after it.
fn read_range(text: &[u8]) -> Option<((u16, u16), &[u8])> {
    let text = text.strip_prefix(b"[")?;
    let (low, text) = read_number(text, MOST_RANGE_DIGITS)?;
    let text = text.strip_prefix(b",")?;
    let (high, text) = read_number(text, MOST_RANGE_DIGITS)?;
    let text = text.strip_prefix(b"]")?;
    Some(((u16::try_from(low).ok()?, u16::try_from(high).ok()?), text))
}

/// The quorum's line holds its number and nothing else.
fn read_quorum(line: &[u8]) -> Option<u64> {
    let (quorum, left) = read_number(line, MOST_QUORUM_DIGITS)?;
    left.is_empty().then_some(quorum)
}

/// A number at the beginning, of 1 to `most_digits` digits "with no leading
/// zero but 0 itself", and what is left after it.
fn read_number(text: &[u8], most_digits: usize) -> Option<(u64, &[u8])> {
    let digits = text.iter().take_while(|byte| byte.is_ascii_digit()).count();
    let (number, left) = text.split_at(digits);
    let leading_zero = digits > 1 && number.first() == Some(&b'0');
    if digits == 0 || digits > most_digits || leading_zero {
        return None;
    }
    let value = number
        .iter()
        .fold(0, |value, digit| value * 10 + u64::from(digit - b'0'));
    Some((value, left))
}
