//! Reads a template's text, and the allowances of `--mixed`.

use super::Component;
use crate::caret;
use crate::counted::of;
use crate::failure::{Answer, Failure};
use std::ops::Range;

/// The components of a template's text.
pub fn components(text: &str) -> Answer<Vec<Component>> {
    let bytes = text.as_bytes();
    let wrong = |part: Range<usize>, why: &str| {
        Err(Failure::usage(format!(
            "the template cannot be read: {why}\n{}",
            caret::under(text, part)
        )))
    };
    let mut components = Vec::new();
    let (mut at, mut gap, mut low, mut high) = (0, 0..0, 0, 0);
    loop {
        let run = at..at + bytes[at..].iter().take_while(|b| **b == b'N').count();
        if run.is_empty() {
            return wrong(at..at + 1, "a component is a run of N");
        }
        at = run.end;
        components.push(Component {
            length: run.len() as u64,
            low,
            high,
            allowance: 0,
            run,
            gap: gap.clone(),
        });
        if at == bytes.len() {
            return Ok(components);
        }
        let start = at;
        for (mark, end) in [(b'[', b','), (b',', b']')] {
            if bytes.get(at) != Some(&mark) {
                return match mark {
                    b'[' => wrong(at..at + 1, "after a run of N comes [l,u], or nothing"),
                    _ => wrong(
                        at..at + 1,
                        "between the two numbers of a gap stands a comma",
                    ),
                };
            }
            let digits = at + 1..at + 1 + digits(&bytes[at + 1..]);
            if digits.is_empty() {
                return wrong(digits.start..digits.start + 1, "a gap's number is missing");
            }
            if digits.len() > 1 && bytes[digits.start] == b'0' {
                return wrong(digits, "a number has no leading zero");
            }
            // One that is too long for 64 bits is above every limit.
            let number = text[digits.clone()].parse().unwrap_or(u64::MAX);
            if end == b',' {
                low = number;
            } else {
                high = number;
            }
            at = digits.end;
        }
        if bytes.get(at) != Some(&b']') {
            return wrong(at..at + 1, "a gap ends with ]");
        }
        at += 1;
        gap = start..at;
    }
}

/// How many digits stand first.
fn digits(bytes: &[u8]) -> usize {
    bytes.iter().take_while(|b| b.is_ascii_digit()).count()
}

/// Gives the components their allowances.
pub fn allow(components: &mut [Component], mixed: &str) -> Answer<()> {
    let parts: Vec<&str> = mixed.split(',').collect();
    let mut at = 0;
    let mut numbers = Vec::new();
    for part in &parts {
        let wrong = |why: &str| {
            Err(Failure::usage(format!(
                "--mixed cannot be read: {why}\n{}",
                caret::under(mixed, at..at + part.len())
            )))
        };
        if part.is_empty() || digits(part.as_bytes()) < part.len() {
            return wrong("it takes numbers with commas between them, such as 1,0");
        }
        if part.len() > 1 && part.starts_with('0') {
            return wrong("a number has no leading zero");
        }
        numbers.push(part.parse().unwrap_or(u64::MAX));
        at += part.len() + 1;
    }
    if numbers.len() != 1 && numbers.len() != components.len() {
        return Err(Failure::usage(format!(
            "--mixed has {}, and the template has {}: it takes one for each, or one for all",
            of(numbers.len() as u64, "number"),
            of(components.len() as u64, "component")
        )));
    }
    for (i, component) in components.iter_mut().enumerate() {
        component.allowance = numbers[i.min(numbers.len() - 1)];
    }
    Ok(())
}
