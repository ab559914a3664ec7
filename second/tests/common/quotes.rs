//! Pages that quote lines of other files: what they quote, and whether it stands
//! there.

use std::path::Path;

const FENCE: &str = "```";

/// The repository's root.
fn root() -> &'static Path {
    Path::new(concat!(env!("CARGO_MANIFEST_DIR"), "/.."))
}

/// A file's text, by its path from the root.
pub fn contents(path: &str) -> Result<String, String> {
    std::fs::read_to_string(root().join(path)).map_err(|error| error.to_string())
}

/// Some lines, and the file that they are quoted from.
#[derive(Debug, PartialEq)]
pub struct Quote<'a> {
    pub path: &'a str,
    /// The line of the page, from 1, after which they stand.
    pub at: usize,
    pub lines: Vec<&'a str>,
}

/// The quotes of a page: the lines of each fenced block, from the file that
/// the line before it names that begins with "From". Each block has a line of
/// its own, and each such line its block.
pub fn quotes(page: &str) -> Result<Vec<Quote<'_>>, String> {
    let mut quotes = Vec::new();
    let mut named = None;
    let mut lines = (1..).zip(page.lines());
    while let Some((at, line)) = lines.next() {
        if let Some(rest) = line.strip_prefix("From `") {
            if let Some(path) = named.replace(rest.split('`').next().unwrap_or(rest)) {
                return Err(format!("before line {at} nothing is quoted from {path}"));
            }
        } else if line.trim_start().starts_with(FENCE) {
            let path = named
                .take()
                .ok_or_else(|| format!("the block at line {at} is quoted from no file"))?;
            let block = lines.by_ref().map(|(_, line)| line);
            let lines: Vec<&str> = block.take_while(|line| line.trim() != FENCE).collect();
            if lines.iter().all(|line| line.trim().is_empty()) {
                return Err(format!("the block at line {at} is empty"));
            }
            quotes.push(Quote { path, at, lines });
        }
    }
    match named {
        Some(path) => Err(format!("at the end nothing is quoted from {path}")),
        None => Ok(quotes),
    }
}

/// What is wrong with the quotes of a page: each that does not stand in its
/// file, as whole lines, one after another.
pub fn wrong(page: &str, contents: impl Fn(&str) -> Result<String, String>) -> Vec<String> {
    let quotes = match quotes(page) {
        Ok(quotes) => quotes,
        Err(cause) => return vec![cause],
    };
    let mut wrong = Vec::new();
    if quotes.len() < 2 {
        wrong.push(format!(
            "quotes: {}, and two at least are wanted",
            quotes.len()
        ));
    }
    for Quote { path, at, lines } in quotes {
        let block = format!("the block at line {at} ({})", lines[0].trim());
        match contents(path) {
            Ok(text) => {
                let there: Vec<&str> = text.lines().collect();
                if !there.windows(lines.len()).any(|there| there == lines) {
                    wrong.push(format!("{block} no longer stands in {path}"));
                }
            }
            Err(cause) => wrong.push(format!("{block}: no {path}: {cause}")),
        }
    }
    wrong
}
