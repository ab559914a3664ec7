//! A quorum as an operator writes it: a number, or a share of the sequences.

use crate::caret;
use crate::failure::{Answer, Failure};
use std::path::Path;

/// A quorum that was read.
#[derive(Clone, Copy, Debug, PartialEq, Eq)]
pub enum Quorum {
    /// So many sequences.
    Number(u64),
    /// A share: so many of `whole`, which is 100 % in the unit that it was
    /// written in.
    Share { part: u64, whole: u64 },
}

impl Quorum {
    /// Reads `12`, `12%` or `12.5%`. What is none is told with how it would be
    /// written.
    pub fn read(text: &str) -> Answer<Quorum> {
        Quorum::strict(text).map_err(|failure| match hint(text) {
            Some(hint) => failure.and(hint),
            None => failure,
        })
    }

    fn strict(text: &str) -> Answer<Quorum> {
        let wrong = |why: &str| {
            Err(Failure::usage(format!(
                "the quorum cannot be read: {why}\n{}",
                caret::under(text, 0..text.len())
            )))
        };
        let Some(share) = text.strip_suffix('%') else {
            if text.is_empty() || !text.bytes().all(|b| b.is_ascii_digit()) {
                return wrong("it is a number of sequences, or a share of them such as 12%");
            }
            // One that is too long for 64 bits is above every limit.
            return Ok(Quorum::Number(text.parse().unwrap_or(u64::MAX)));
        };
        let (before, after) = share.split_once('.').unwrap_or((share, ""));
        let digits = |part: &str| part.bytes().all(|b| b.is_ascii_digit());
        if before.is_empty() || !digits(before) || !digits(after) || share.ends_with('.') {
            return wrong("a share is a number and %, such as 12% or 12.5%");
        }
        if before.len() > 3 || after.len() > 9 {
            return wrong("a share has at most three digits, and nine behind its point");
        }
        let unit = 10u64.pow(after.len() as u32);
        let part = format!("{before}{after}").parse().unwrap_or(u64::MAX);
        Ok(Quorum::Share {
            part,
            whole: 100 * unit,
        })
    }

    /// The number of sequences: of a share the least that reaches it.
    pub fn of(self, sequences: u64) -> u64 {
        match self {
            Quorum::Number(number) => number,
            Quorum::Share { part, whole } => {
                let least = (u128::from(part) * u128::from(sequences)).div_ceil(u128::from(whole));
                u64::try_from(least).unwrap_or(u64::MAX)
            }
        }
    }
}

/// How a text would be written, or what it is in the place of a quorum.
fn hint(text: &str) -> Option<String> {
    if let Some(written) = written(text) {
        return Some(format!("Write it {written}."));
    }
    if let Some(hint) = with_point(text) {
        return Some(hint);
    }
    Path::new(text).is_file().then(|| {
        "This is a file: the template comes first, then the quorum, and the file last.".to_string()
    })
}

/// The text as a quorum that can be read, where there is a plain one: `0.5`,
/// `1/2`, `12,5 %`, `50 percent`, `1e2` and `1,024` as people write them.
fn written(text: &str) -> Option<String> {
    let text = text.trim().to_lowercase();
    let percent = ["%", "percent", "per cent", "pct"]
        .iter()
        .find_map(|unit| text.strip_suffix(unit));
    let written = if let Some(share) = percent {
        let (whole, part) = decimal(share.trim())?;
        Some(percentage(&format!("{whole}.{part}")))
    } else if let Some((part, whole)) = text.split_once('/') {
        share_of(part.trim().parse().ok()?, whole.trim().parse().ok()?)
    } else if let Some((number, zeros)) = text.split_once('e') {
        let zeros = zeros.parse().ok().filter(|zeros| *zeros < 10u32)?;
        let number: u64 = number.parse().ok()?;
        number.checked_mul(10u64.pow(zeros)).map(|n| n.to_string())
    } else if let Some(("0", part)) = decimal(&text) {
        share_of(part.parse().ok()?, 10u64.checked_pow(part.len() as u32)?)
    } else {
        thousands(&text)
    };
    written.filter(|written| Quorum::strict(written).is_ok())
}

/// What can be said of a number with a point that is above every part of one:
/// it may be a number of sequences, or a share.
fn with_point(text: &str) -> Option<String> {
    let (whole, part) = decimal(text.trim())?;
    let whole: u64 = whole.parse().ok().filter(|whole| *whole > 0)?;
    let part = part.trim_end_matches('0');
    Some(match (whole, part) {
        (1, "") => "Write it 100%, or 1 for one sequence.".to_string(),
        (2..=100, "") => format!("Write it {whole} for {whole} sequences, or {whole}% for a share of them."),
        (1..=99, _) => format!("A share of the sequences is written {whole}.{part}%, and a number of them without a point."),
        _ => "A number of sequences is written without a point.".to_string(),
    })
}

/// The digits before and behind a point, which some write as a comma.
fn decimal(text: &str) -> Option<(&str, &str)> {
    let (whole, part) = text.split_once(['.', ',']).unwrap_or((text, ""));
    let digits = |part: &str| part.bytes().all(|b| b.is_ascii_digit());
    let any = !whole.is_empty() || !part.is_empty();
    let whole = if whole.is_empty() { "0" } else { whole };
    (any && digits(whole) && digits(part)).then_some((whole, part))
}

/// A share as it is written. What is left of a long one is left out: so it asks
/// for no sequence more.
fn share_of(part: u64, whole: u64) -> Option<String> {
    if part == 0 || part > whole {
        return None;
    }
    // Nine digits behind the point, of a hundred.
    let digits = u128::from(part) * 100_000_000_000 / u128::from(whole);
    let (whole, part) = (digits / 1_000_000_000, digits % 1_000_000_000);
    Some(percentage(&format!("{whole}.{part:09}")))
}

/// A number with a point as a percentage, without the zeros at its end.
fn percentage(number: &str) -> String {
    format!("{}%", number.trim_end_matches('0').trim_end_matches('.'))
}

/// A number whose thousands stand apart.
fn thousands(text: &str) -> Option<String> {
    let groups: Vec<&str> = text.split([',', '\'', '_', ' ']).collect();
    let digits = |group: &&str| group.bytes().all(|b| b.is_ascii_digit());
    let plain = groups.iter().all(digits)
        && (1..=3).contains(&groups[0].len())
        && groups[1..].iter().all(|group| group.len() == 3);
    plain.then(|| groups.concat())
}

#[cfg(test)]
mod tests {
    use super::{written, Quorum};

    #[test]
    fn a_quorum_as_people_write_it_is_written_as_here() {
        for (text, plain) in [
            ("0.5", "50%"),
            (".5", "50%"),
            ("0,5", "50%"),
            ("0.125", "12.5%"),
            ("0.50", "50%"),
            ("1/2", "50%"),
            ("1 / 3", "33.333333333%"),
            ("2/3", "66.666666666%"),
            ("26/26", "100%"),
            ("12,5%", "12.5%"),
            ("12 %", "12%"),
            ("12.50 %", "12.5%"),
            (".5%", "0.5%"),
            ("5.%", "5%"),
            ("50 percent", "50%"),
            ("50Percent", "50%"),
            ("1e2", "100"),
            ("1,024", "1024"),
            ("1'024", "1024"),
            ("1 024", "1024"),
            (" 12", "12"),
        ] {
            assert_eq!(written(text).as_deref(), Some(plain), "{text}");
        }
        for text in [
            "", "1.5", "12,5", "1,0", "half", "-1", "3/2", "0/2", "1/0", "0.0", "1000%", "1e99",
            "e", "/", "%", ".", "1,0240", "1.0",
        ] {
            assert_eq!(written(text), None, "{text}");
        }
    }

    #[test]
    fn a_number_with_a_point_may_be_one_or_a_share() {
        for (text, hint) in [
            ("1.0", "Write it 100%, or 1 for one sequence."),
            ("1.", "Write it 100%, or 1 for one sequence."),
            (
                "2.0",
                "Write it 2 for 2 sequences, or 2% for a share of them.",
            ),
            (
                "1.50",
                "A share of the sequences is written 1.5%, and a number of them without a point.",
            ),
            (
                "12,5",
                "A share of the sequences is written 12.5%, and a number of them without a point.",
            ),
            ("100.5", "A number of sequences is written without a point."),
            ("101.0", "A number of sequences is written without a point."),
        ] {
            assert_eq!(super::hint(text).as_deref(), Some(hint), "{text}");
        }
        for text in ["0.0", "1.0.0", "-1.5", "1.5x", ".", ""] {
            assert_eq!(super::hint(text), None, "{text}");
        }
    }

    #[test]
    fn a_share_in_parts_asks_for_what_the_parts_do() {
        for whole in 1..=60 {
            for part in 1..=whole {
                let text = written(&format!("{part}/{whole}")).expect("a share");
                assert_eq!(of(&text, 17 * whole), 17 * part, "{part}/{whole}");
            }
        }
    }

    fn of(text: &str, sequences: u64) -> u64 {
        Quorum::read(text).expect("a quorum").of(sequences)
    }

    #[test]
    fn a_share_is_the_least_number_that_reaches_it() {
        assert_eq!(of("12", 1_024), 12);
        assert_eq!(of("50%", 18), 9);
        assert_eq!(of("50%", 19), 10);
        assert_eq!(of("12%", 1_024), 123);
        assert_eq!(of("12.5%", 1_024), 128);
        assert_eq!(of("12.500000001%", 1_024), 129);
        assert_eq!(of("100%", 7), 7);
        assert_eq!(of("0%", 7), 0);
        assert_eq!(of("0.1%", 7), 1);
        assert_eq!(of("101%", 100), 101);
        assert_eq!(of("99999999999999999999", 7), u64::MAX);
    }

    #[test]
    fn what_is_no_quorum_is_refused() {
        for text in [
            "",
            "%",
            "x",
            "-1",
            "+1",
            "1.5",
            ".5%",
            "5.%",
            "1e2%",
            "12 %",
            "1000%",
            "1.0000000001%",
        ] {
            assert!(Quorum::read(text).is_err(), "{text:?}");
        }
    }
}
