//! What the library refuses, in words that an operator can act on. Which
//! inputs are refused is for the library to say; this only tells what it was.

use crate::caret;
use crate::counted::{grouped, of};
use crate::failure::Failure;
use crate::sequences::Sequences;
use crate::template::Template;
use library::{limits, Refusal};
use std::ops::Range;

/// A refused new search or recovery.
pub fn of_search(
    refusal: Refusal,
    sequences: &Sequences,
    template: &Template,
    quorum: u64,
) -> Failure {
    let called = &sequences.called;
    let count = sequences.count();
    let words = match refusal.number {
        1 if count == 0 => format!("{called}: it holds no sequence"),
        1 => format!(
            "{called}: {}, and a search takes {}: {}",
            of(count, "sequence"),
            grouped(limits::SEQUENCES as u64),
            too_many(count, limits::SEQUENCES as u64)
        ),
        2 => {
            let letters = sequences.letters.len() as u64;
            format!(
                "{called}: {}, and a search takes {}: {}",
                of(letters, "letter"),
                grouped(limits::LETTERS as u64),
                too_many(letters, limits::LETTERS as u64)
            )
        }
        9 if quorum == 0 => "tulfasheq: a quorum of 0: it is at least 1".to_string(),
        9 => format!(
            "tulfasheq: a quorum of {} of {}: {}",
            told(quorum),
            of(count, "sequence"),
            too_many(quorum, count)
        ),
        5..=8 | 24 => return of_template(refusal, template),
        _ => return other(refusal),
    };
    Failure::refused(format!("{words} (refusal {})", refusal.number))
}

/// A number that was read. The largest also stands for all that 64 bits do
/// not hold.
fn told(number: u64) -> String {
    let more = if number == u64::MAX { " or more" } else { "" };
    format!("{}{more}", grouped(number))
}

/// By how much a number is above a limit.
fn too_many(number: u64, most: u64) -> String {
    if number == u64::MAX {
        return "far too many".to_string();
    }
    format!("{} too many", grouped(number.saturating_sub(most)))
}

/// A refused template, with a caret under the part that is refused.
fn of_template(refusal: Refusal, template: &Template) -> Failure {
    let components = &template.components;
    let at = (refusal.place as usize).saturating_sub(1);
    let (part, words) = match refusal.number {
        5 => {
            let count = components.len() as u64;
            let most = limits::COMPONENTS as u64;
            let part = match components.get(limits::COMPONENTS) {
                Some(first) => first.gap.start..template.text.len(),
                None => 0..template.text.len(),
            };
            let words = format!(
                "{}, and a template has at most {most}: {}",
                of(count, "component"),
                too_many(count, most)
            );
            (part, words)
        }
        6 if at < components.len() => {
            let most = u64::from(limits::LENGTH);
            let words = format!(
                "component {} has {}, and at most {most} are taken: {}",
                at + 1,
                of(components[at].length, "letter"),
                too_many(components[at].length, most)
            );
            (components[at].run.clone(), words)
        }
        7 => {
            let (most, kind) = if template.mixed {
                (limits::MIXED_MOTIF, "a mixed search")
            } else {
                (limits::MOTIF, "a search")
            };
            let letters = template.letters();
            let words = format!(
                "{} in all components, and {kind} takes at most {most}: {}",
                of(letters, "letter"),
                too_many(letters, most)
            );
            (past(template, most), words)
        }
        8 if at < components.len() => {
            let component = &components[at];
            let most = u64::from(limits::GAP);
            let words = if component.low > component.high {
                format!(
                    "the gap before component {} goes down, from {} to {}",
                    at + 1,
                    told(component.low),
                    told(component.high)
                )
            } else {
                format!(
                    "the gap before component {} goes up to {}, and {most} is the most: {}",
                    at + 1,
                    told(component.high),
                    too_many(component.high, most)
                )
            };
            (component.gap.clone(), words)
        }
        24 => {
            let above = components.iter().position(|c| c.allowance > c.length);
            let Some(above) = above else {
                return other(refusal);
            };
            let component = &components[above];
            let words = format!(
                "component {} has {}, and --mixed allows {} of them to stand for several bases: {}",
                above + 1,
                of(component.length, "letter"),
                told(component.allowance),
                too_many(component.allowance, component.length)
            );
            (component.run.clone(), words)
        }
        _ => return other(refusal),
    };
    Failure::refused(format!(
        "tulfasheq: {words} (refusal {})\n{}",
        refusal.number,
        caret::under(&template.text, part)
    ))
}

/// The part of a template's text past so many letters.
fn past(template: &Template, most: u64) -> Range<usize> {
    let mut left = most;
    for component in &template.components {
        if component.length > left {
            return component.run.start + left as usize..template.text.len();
        }
        left -= component.length;
    }
    0..template.text.len()
}

/// A refused motif, and where it comes from.
pub fn of_motif(refusal: Refusal, template: &Template, motif: &str, called: &str) -> Failure {
    let words = match refusal.number {
        14 => format!(
            "{motif} has more letters that stand for several bases than the allowances {} let a component have",
            template.allowances()
        ),
        _ => return other(refusal),
    };
    Failure::refused(format!("{called}: {words} (refusal {})", refusal.number))
}

/// A saved search that the library refuses. Its records count from 0: the size
/// record, one for each component, and the place.
pub fn of_save(refusal: Refusal, called: &str) -> Failure {
    let number = refusal.number;
    let place = refusal.place;
    let record = match number {
        11 | 21 | 22 | 23 => format!("record {place} of the saved search "),
        _ => "the saved search ".to_string(),
    };
    let words = match number {
        10 => "is cut short, or is none".to_string(),
        11 => "is of the wrong kind".to_string(),
        21 => "has a byte that must be 0 and is not".to_string(),
        22 => "has a number of letters that is not the sum of the components' lengths".to_string(),
        23 => "has a place that its template has not".to_string(),
        12 => "is over other sequences".to_string(),
        13 => "stands at a place that the search over these sequences never comes to".to_string(),
        6 | 8 => format!("has a component that no template has: component {place}"),
        5 | 7 | 24 => "has a template that no search has".to_string(),
        9 => "has a quorum that no search has".to_string(),
        _ => "is refused".to_string(),
    };
    Failure::damaged(format!("{called}: {record}{words} (refusal {number})"))
}

/// A refusal that has no words of its own.
fn other(refusal: Refusal) -> Failure {
    Failure::refused(format!(
        "tulfasheq: refused, at place {} (refusal {})",
        refusal.place, refusal.number
    ))
}
