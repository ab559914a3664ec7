//! The command line.

mod sorted;

use crate::failure::{Answer, Failure};
use crate::help::{self, usage, Of};
use crate::out::Out;
use crate::places::{self, Format, How, What};
use crate::quorum::Quorum;
use crate::search;
use crate::template::Template;
pub use sorted::takes_value;
use sorted::{path, sorted, text, Sorted};
use std::ffi::{OsStr, OsString};
use std::path::PathBuf;

/// What the program is asked to do.
pub enum Command {
    Help(Of),
    Version,
    Search(search::Asked),
    Resume {
        folder: PathBuf,
        out: Out,
        quiet: bool,
    },
    Status {
        folder: PathBuf,
    },
    Places(places::Asked),
}

/// Reads the words of a command line.
pub fn read(words: Vec<OsString>) -> Answer<Command> {
    let mut words = words.into_iter();
    let Some(first) = words.next().filter(|word| !word.is_empty()) else {
        return Err(Failure::usage(format!(
            "no command\n{}",
            help::text(Of::All)
        )));
    };
    let rest: Vec<OsString> = words.collect();
    match first.to_str() {
        Some("help" | "--help" | "-h") => Ok(Command::Help(helped(&rest)?)),
        Some("--version" | "-V") => Ok(Command::Version),
        Some("search") => sorted("search", Of::Search, rest, read_search),
        Some("resume") => sorted("resume", Of::Resume, rest, read_resume),
        Some("status") => sorted("status", Of::Status, rest, read_status),
        Some("places") => sorted("places", Of::Places, rest, read_places),
        _ => {
            let known = ["help", "--help", "--version", "-h", "-V"];
            let there_are = "search, resume, status, places and help";
            Err(no_command(&first, &known, there_are))
        }
    }
}

/// What `help` is asked about.
fn helped(rest: &[OsString]) -> Answer<Of> {
    match rest {
        [] => Ok(Of::All),
        [word] => {
            let named = |(name, _): &&(&str, Of)| word == name;
            let found = help::COMMANDS.iter().chain(&help::MADE).find(named);
            let there_are = "search, resume, status and places, and man and bash";
            found
                .map(|(_, of)| *of)
                .ok_or_else(|| no_command(word, &["man", "bash"], there_are))
        }
        _ => Err(Failure::usage("help takes one command")),
    }
}

/// A word that is no command, nor one of those that are known besides.
fn no_command(word: &OsStr, besides: &[&'static str], there_are: &str) -> Failure {
    let commands = help::COMMANDS.map(|(name, _)| name);
    let known = commands.iter().chain(besides).copied();
    let told = match word.to_str().and_then(|word| usage::meant(word, known)) {
        Some(meant) => format!("did you mean {meant}?"),
        None => format!("there are {there_are}"),
    };
    Failure::usage(format!("there is no command {}: {told}", word.display()))
}

fn template(word: &OsStr, mixed: Option<&str>) -> Answer<Template> {
    Template::read(&text(word, "the template")?, mixed)
}

fn read_search(mut words: Sorted) -> Answer<Command> {
    let out = words.out()?;
    let mixed = words.text("--mixed")?;
    let job = words.path("--job")?;
    let (quiet, upper) = (words.has("--quiet"), words.has("--upper"));
    let [shape, quorum, file] = words.plain(["TEMPLATE", "QUORUM", "FILE.fa"])?;
    Ok(Command::Search(search::Asked {
        template: template(&shape, mixed.as_deref())?,
        quorum: Quorum::read(&text(&quorum, "the quorum")?)?,
        file: path(file, "FILE.fa")?,
        out,
        job,
        quiet,
        upper,
    }))
}

fn read_resume(mut words: Sorted) -> Answer<Command> {
    let out = words.out()?;
    let quiet = words.has("--quiet");
    let [folder] = words.plain(["DIR"])?;
    let folder = path(folder, "DIR")?;
    Ok(Command::Resume { folder, out, quiet })
}

fn read_status(words: Sorted) -> Answer<Command> {
    let [folder] = words.plain(["DIR"])?;
    let folder = path(folder, "DIR")?;
    Ok(Command::Status { folder })
}

fn read_places(mut words: Sorted) -> Answer<Command> {
    let out = words.out()?;
    let mixed = words.text("--mixed")?;
    let job = words.path("--job")?;
    let list = words.path("--list")?;
    let from = words.number("--from")?.unwrap_or(0);
    let rows = words.number("--rows")?;
    let (quiet, upper) = (words.has("--quiet"), words.has("--upper"));
    let formats: Vec<Format> = [
        ("--bed", Format::Bed),
        ("--gff", Format::Gff),
        ("--tsv", Format::Tsv),
    ]
    .into_iter()
    .filter_map(|(name, format)| words.has(name).then_some(format))
    .collect();
    let format = match formats[..] {
        [] => Format::Tsv,
        [format] => format,
        _ => return Err(Failure::usage("one of --bed, --gff and --tsv")),
    };
    let what = match (job, list) {
        (Some(_), Some(_)) => return Err(Failure::usage("one of --job and --list")),
        (Some(folder), None) => {
            if mixed.is_some() {
                return Err(Failure::usage("a job knows its own --mixed"));
            }
            if upper {
                return Err(Failure::usage("a job has its own sequences: no --upper"));
            }
            let [] = words.plain([])?;
            What::Job(folder)
        }
        (None, Some(list)) => {
            let [shape, file] = words.plain(["TEMPLATE", "FILE.fa"])?;
            What::List {
                template: template(&shape, mixed.as_deref())?,
                list,
                file: path(file, "FILE.fa")?,
            }
        }
        (None, None) => {
            let (shape, motif, file) = if words.count() == 2 {
                let [motif, file] = words.plain(["MOTIF", "FILE.fa"])?;
                (None, motif, file)
            } else {
                let [shape, motif, file] = words.plain(["[TEMPLATE]", "MOTIF", "FILE.fa"])?;
                (Some(text(&shape, "the template")?), motif, file)
            };
            let motif = text(&motif, "the motif")?;
            What::Motif {
                template: places::template_of(shape.as_deref(), mixed.as_deref(), &motif)?,
                motif,
                file: path(file, "FILE.fa")?,
            }
        }
    };
    let how = How {
        format,
        from,
        rows,
        out,
        quiet,
        upper,
    };
    Ok(Command::Places(places::Asked { what, how }))
}
