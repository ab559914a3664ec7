//! The words of a command line, sorted into options and others.

use super::Command;
use crate::counted;
use crate::failure::{Answer, Failure};
use crate::help::{usage, Of};
use crate::out::Out;
use std::ffi::{OsStr, OsString};
use std::os::unix::ffi::OsStrExt;
use std::path::{Path, PathBuf};

/// The options that are followed by a value, and those that are not.
const VALUED: [&str; 6] = ["--out", "--mixed", "--job", "--list", "--from", "--rows"];
const BARE: [&str; 5] = ["--quiet", "--upper", "--bed", "--gff", "--tsv"];

/// Whether an option is followed by a value.
pub fn takes_value(option: &str) -> bool {
    VALUED.contains(&option)
}

/// The words after a command, sorted: those that stand for themselves, and
/// options, each at most once.
pub struct Sorted {
    command: &'static str,
    plain: Vec<OsString>,
    options: Vec<(&'static str, OsString)>,
}

/// Sorts the words and reads them, or shows the command's help where that is
/// asked for.
pub fn sorted(
    command: &'static str,
    of: Of,
    words: Vec<OsString>,
    read: impl FnOnce(Sorted) -> Answer<Command>,
) -> Answer<Command> {
    let mut sorted = Sorted {
        command,
        plain: Vec::new(),
        options: Vec::new(),
    };
    let mut words = words.into_iter();
    while let Some(word) = words.next() {
        if word == "--help" || word == "-h" {
            return Ok(Command::Help(of));
        }
        if word == "--" {
            sorted.plain.extend(words);
            break;
        }
        // Its bytes, since a path behind = need not be text.
        let bytes = word.as_bytes();
        let short = bytes.len() > 1 && bytes[0] == b'-' && bytes[1].is_ascii_alphabetic();
        if !bytes.starts_with(b"--") && !short {
            sorted.plain.push(word);
            continue;
        }
        let (name, value) = match bytes.iter().position(|b| *b == b'=') {
            Some(at) if !short => (
                &bytes[..at],
                Some(OsStr::from_bytes(&bytes[at + 1..]).to_os_string()),
            ),
            _ => (bytes, None),
        };
        let name = if name == b"-o" { b"--out" } else { name };
        let known = |option: &&&str| option.as_bytes() == name;
        if let Some(name) = VALUED.iter().find(known) {
            // What looks like an option is one: the value was forgotten.
            let is_value = |word: &OsString| !word.as_bytes().starts_with(b"--");
            let Some(value) = value.or_else(|| words.next().filter(is_value)) else {
                return Err(Failure::usage(format!("{name} wants a value after it")));
            };
            sorted.add(name, value)?;
        } else if let (Some(name), None) = (BARE.iter().find(known), value) {
            sorted.add(name, OsString::new())?;
        } else {
            return Err(no_option(&word, command, of));
        }
    }
    read(sorted)
}

/// A word that looks like an option and is none, and which it was meant to be
/// if it is close to one that the command takes.
fn no_option(word: &OsStr, command: &str, of: Of) -> Failure {
    let told = word.display().to_string();
    let (name, value) = told.split_once('=').unwrap_or((&told, ""));
    let known = || usage::options(of).into_iter().map(|(name, _)| name);
    let meant = match usage::meant(name, known().chain(["--help", "-h"])) {
        // A name that is known stands there with a value that it does not take.
        Some(meant) if meant != name => format!(": did you mean {meant}?"),
        // The value of a short one is a word of its own.
        None if known().any(|name| name == "--out") && name.starts_with("-o") => {
            format!(
                ": did you mean -o {}?",
                if value.is_empty() { &name[2..] } else { value }
            )
        }
        _ => String::new(),
    };
    Failure::usage(format!(
        "there is no option {told}{meant} (tulfasheq {command} --help)"
    ))
}

impl Sorted {
    fn add(&mut self, name: &'static str, value: OsString) -> Answer<()> {
        if self.options.iter().any(|(other, _)| *other == name) {
            return Err(Failure::usage(format!("{name} stands there twice")));
        }
        self.options.push((name, value));
        Ok(())
    }

    /// An option's value, which is then no longer there.
    fn take(&mut self, name: &str) -> Option<OsString> {
        let at = self.options.iter().position(|(other, _)| *other == name)?;
        Some(self.options.remove(at).1)
    }

    pub fn has(&mut self, name: &str) -> bool {
        self.take(name).is_some()
    }

    /// A value as text.
    pub fn text(&mut self, name: &str) -> Answer<Option<String>> {
        self.take(name).map(|value| text(&value, name)).transpose()
    }

    pub fn number(&mut self, name: &str) -> Answer<Option<u64>> {
        let Some(value) = self.text(name)? else {
            return Ok(None);
        };
        if value.is_empty() || !value.bytes().all(|b| b.is_ascii_digit()) {
            return Err(Failure::usage(format!(
                "{name} wants a number, not {value:?}"
            )));
        }
        // One that is too long for 64 bits is above every row's.
        Ok(Some(value.parse().unwrap_or(u64::MAX)))
    }

    /// A value as a path.
    pub fn path(&mut self, name: &str) -> Answer<Option<PathBuf>> {
        self.take(name).map(|value| path(value, name)).transpose()
    }

    /// Where a table goes; - is standard output.
    pub fn out(&mut self) -> Answer<Out> {
        let file = self.path("--out")?;
        let file = file.filter(|file| file != Path::new("-"));
        Ok(Out { file })
    }

    /// How many words stand for themselves.
    pub fn count(&self) -> usize {
        self.plain.len()
    }

    /// The words that stand for themselves, of which there are exactly these,
    /// after all options that the command knows were taken.
    pub fn plain<const N: usize>(self, names: [&str; N]) -> Answer<[OsString; N]> {
        let command = self.command;
        if let Some((name, _)) = self.options.first() {
            return Err(Failure::usage(format!(
                "{name} is no option here (tulfasheq {command} --help)"
            )));
        }
        let count = self.plain.len() as u64;
        let plain: Result<[OsString; N], _> = self.plain.try_into();
        plain.map_err(|_| {
            let takes = match N {
                0 => "no word beside its options".to_string(),
                _ => names.join(" "),
            };
            let are = if count == 1 { "is" } else { "are" };
            Failure::usage(format!(
                "{command} takes {takes}, and there {are} {} (tulfasheq {command} --help)",
                counted::of(count, "word")
            ))
        })
    }
}

/// A word as text.
pub fn text(word: &OsStr, name: &str) -> Answer<String> {
    word.to_str()
        .map(str::to_string)
        .ok_or_else(|| Failure::usage(format!("{name} {} is no text", word.display())))
}

/// A word as a path.
pub fn path(word: OsString, name: &str) -> Answer<PathBuf> {
    if word.is_empty() {
        return Err(Failure::usage(format!("{name} is an empty word")));
    }
    Ok(word.into())
}
