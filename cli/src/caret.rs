//! A text with a caret under the part of it that is wrong.

use std::ops::Range;

/// The characters that are shown before the part, of the part and after it, at
/// most.
const BEFORE: usize = 60;
const PART: usize = 60;
const AFTER: usize = 20;

/// The text, and under it carets from one byte of it up to another: at least
/// one, so that a place past the end shows too. Of a long text what stands
/// around that place is shown, and a character that would move the cursor is
/// shown as `?`.
pub fn under(text: &str, part: Range<usize>) -> String {
    let start = floor(text, part.start);
    let end = floor(text, part.end).max(start);
    let (before, part, after) = (&text[..start], &text[start..end], &text[end..]);
    let skipped = before.chars().count().saturating_sub(BEFORE);
    let mut line: String = if skipped > 0 { "…" } else { "" }.to_string();
    line.extend(before.chars().skip(skipped).map(plain));
    let indent = line.chars().count();
    let width = part.chars().count().clamp(1, PART);
    line.extend(part.chars().take(PART).map(plain));
    let left = part.chars().skip(PART).chain(after.chars());
    line.extend(left.clone().take(AFTER).map(plain));
    if left.count() > AFTER {
        line.push('…');
    }
    format!("  {line}\n  {}{}", " ".repeat(indent), "^".repeat(width))
}

/// A character that takes its place in a line.
fn plain(c: char) -> char {
    if c.is_control() {
        '?'
    } else {
        c
    }
}

/// The last boundary of a character at or before a byte.
fn floor(text: &str, at: usize) -> usize {
    let at = at.min(text.len());
    (0..=at)
        .rev()
        .find(|i| text.is_char_boundary(*i))
        .unwrap_or(0)
}

#[cfg(test)]
mod tests {
    use super::under;

    #[test]
    fn carets_stand_under_the_part() {
        assert_eq!(under("NNx", 2..3), "  NNx\n    ^");
        assert_eq!(under("NN[", 3..3), "  NN[\n     ^");
        assert_eq!(under("ä[0,1]", 2..7), "  ä[0,1]\n   ^^^^^");
        assert_eq!(under("ä", 1..9), "  ä\n  ^");
        assert_eq!(under("N\tN\n", 1..2), "  N?N?\n   ^");
    }

    #[test]
    fn a_long_text_is_shown_around_the_part() {
        let text = format!("{}x{}", "N".repeat(100), "N".repeat(100));
        let shown = format!("  …{}x{}…\n", "N".repeat(60), "N".repeat(20));
        let carets = format!("  {}^", " ".repeat(61));
        assert_eq!(under(&text, 100..101), format!("{shown}{carets}"));
        let shown = format!("  {}…\n", "N".repeat(80));
        let carets = format!("  {}", "^".repeat(60));
        assert_eq!(under(&"N".repeat(90), 0..90), format!("{shown}{carets}"));
        assert_eq!(
            under(&"N".repeat(80), 0..80).lines().next(),
            Some(&*format!("  {}", "N".repeat(80)))
        );
    }
}
