//! The manual page, made from the texts of help: what is a usage line there,
//! an option with what is told of it, an example or other text is set as such,
//! and the words stay as they are.

use super::{text, Of, COMMANDS, VERSION};

/// The paragraphs of the text of all commands that have a section of their own
/// behind the commands, by their first lines.
const LAST: [(&str, &str); 2] = [("It takes", "LIMITS"), ("It ends with", "EXIT STATUS")];

/// The page, as man reads it.
pub fn page() -> String {
    let mut page = vec![
        format!(".TH TULFASHEQ 1 \"\" \"{VERSION}\""),
        ".nh".to_string(),
        ".ad l".to_string(),
    ];
    let mut last = Vec::new();
    for (i, paragraph) in paragraphs(Of::All).enumerate() {
        let first = paragraph.lines().next().unwrap_or("");
        if let Some((_, section)) = LAST.iter().find(|(line, _)| first == *line) {
            last.push(format!(".SH {section}"));
            set(paragraph, &mut last);
            continue;
        }
        match i {
            0 => page.extend([".SH NAME".to_string(), name(first)]),
            1 => page.push(".SH SYNOPSIS".to_string()),
            2 => page.push(".SH DESCRIPTION".to_string()),
            _ => {}
        }
        if i > 0 {
            set(paragraph, &mut page);
        }
    }
    for (name, of) in COMMANDS {
        page.push(format!(".SH {}", name.to_uppercase()));
        for paragraph in paragraphs(of) {
            set(paragraph, &mut page);
        }
    }
    page.extend(last);
    page.join("\n") + "\n"
}

/// The paragraphs of a text: an empty line stands between them.
fn paragraphs(of: Of) -> impl Iterator<Item = &'static str> {
    text(of).trim_end().split("\n\n")
}

/// The first line, as man wants a name: a stroke for the colon.
fn name(first: &str) -> String {
    let (name, what) = first.split_once(": ").unwrap_or((first, ""));
    let what = what.trim_end_matches('.');
    format!("{} \\- {}", escaped(&name.to_lowercase()), escaped(what))
}

/// Sets a paragraph.
fn set(paragraph: &str, page: &mut Vec<String>) {
    // Lines that stand as they are.
    if paragraph.starts_with("    ") {
        page.extend([".PP", ".RS 4", ".nf"].map(str::to_string));
        page.extend(paragraph.lines().map(|line| escaped(line.trim_start())));
        page.extend([".fi", ".RE"].map(str::to_string));
        return;
    }
    let usage = paragraph.starts_with("usage: ");
    if !usage && !paragraph.starts_with(' ') {
        page.push(".PP".to_string());
    }
    for line in paragraph.lines() {
        let rest = line.strip_prefix("usage: ").unwrap_or(line).trim_start();
        // A usage line, or one that begins two columns in, has a name and,
        // behind blanks, what is told of it; lines further in go on with that.
        let named = usage || line.len() == rest.len() + 2;
        if let Some((name, told)) = rest.split_once("  ").filter(|_| named) {
            page.push(".TP".to_string());
            page.push(format!("\\fB{}\\fR", escaped(name)));
            page.push(escaped(told.trim_start()));
        } else if usage {
            if rest.starts_with("tulfasheq ") {
                page.push(".HP 4".to_string());
            }
            page.push(kept_together(&escaped(rest)));
        } else {
            page.push(escaped(rest));
        }
    }
}

/// A usage line that is not broken within brackets.
fn kept_together(line: &str) -> String {
    let mut depth = 0;
    let mut text = String::new();
    for c in line.chars() {
        match c {
            '[' => depth += 1,
            ']' => depth -= 1,
            ' ' if depth > 0 => text.push('\\'),
            _ => {}
        }
        text.push(c);
    }
    text
}

/// A line in which man finds nothing to obey, and shows each character as it
/// is.
fn escaped(line: &str) -> String {
    let mut text = String::new();
    if line.starts_with('.') {
        text.push_str("\\&");
    }
    for c in line.chars() {
        match c {
            '\\' => text.push_str("\\e"),
            '-' => text.push_str("\\-"),
            '\'' => text.push_str("\\(aq"),
            '`' => text.push_str("\\(ga"),
            '^' => text.push_str("\\(ha"),
            '~' => text.push_str("\\(ti"),
            c => text.push(c),
        }
    }
    text
}

#[cfg(test)]
mod tests {
    use super::{escaped, set};

    #[test]
    fn man_finds_nothing_to_obey_in_the_words() {
        assert_eq!(escaped(".so a\\b"), "\\&.so a\\eb");
        assert_eq!(escaped("'--x` ^~"), "\\(aq\\-\\-x\\(ga \\(ha\\(ti");
    }

    #[test]
    fn each_form_of_text_is_set_as_it_is_meant() {
        for (paragraph, expected) in [
            ("One\ntwo.", ".PP One two."),
            (
                "Ends\n  0  well\n     or so\n  1  not",
                ".PP Ends .TP \\fB0\\fR well or so .TP \\fB1\\fR not",
            ),
            (
                "usage: tulfasheq a [x]\n                 [y Z]\n       tulfasheq b",
                ".HP 4 tulfasheq a [x] [y\\ Z] .HP 4 tulfasheq b",
            ),
            (
                "usage: tulfasheq a   does\n                    this",
                ".TP \\fBtulfasheq a\\fR does this",
            ),
            ("    a  b\n    c", ".PP .RS 4 .nf a  b c .fi .RE"),
        ] {
            let mut page = Vec::new();
            set(paragraph, &mut page);
            assert_eq!(page.join(" "), expected, "{paragraph}");
        }
    }
}
