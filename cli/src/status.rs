//! `status`: what a job is, and how far.

use crate::failure::Answer;
use crate::job::{About, UNKNOWN};
use crate::out::Out;
use crate::progress::{clock, percent};
use std::path::Path;

/// Tells of a job, a line for each thing: its name, a tab, and what it is.
pub fn status(folder: &Path) -> Answer<()> {
    let about = About::read(folder)?;
    let template = &about.template;
    let (letters, number) = about.next;
    let next = match letters {
        0 => "none: the search has ended".to_string(),
        _ => template.prefix(letters, number),
    };
    let state = match (about.running()?, about.ended()) {
        (true, _) => "running",
        (false, true) => "ended",
        (false, false) => "stopped",
    };
    let lines = [
        ("state", state.to_string()),
        ("template", template.text.clone()),
        ("mixed", template.mixed_or_no()),
        ("quorum", about.quorum.to_string()),
        ("sequences", about.sequences.count().to_string()),
        ("letters", about.sequences.letters.len().to_string()),
        ("next", next),
        ("done", percent(template.share(letters, number))),
        ("steps", about.steps().to_string()),
        ("rows", about.rows().to_string()),
        ("time", about.time().map_or(UNKNOWN.to_string(), clock)),
    ];
    let mut text = String::new();
    for (name, value) in lines {
        text.extend([name, "\t", &value, "\n"]);
    }
    Out::default().open()?.write(text.as_bytes())
}
