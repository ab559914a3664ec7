//! Where a table goes: standard output, or a file, which is written beside its
//! place and takes it when it is whole.

mod part;
mod target;

use crate::failure::{Answer, Failure};
use crate::folder;
use part::Part;
use std::fs::{self, File};
use std::io::{self, IsTerminal, Write};
use std::os::fd::AsFd;
use std::path::{self, Path, PathBuf};
use target::Target;

/// A place to write to. Nothing is made before it is opened.
#[derive(Clone, Debug, Default)]
pub struct Out {
    pub file: Option<PathBuf>,
}

/// An open one.
pub struct Open {
    called: String,
    to: To,
}

/// Where it leads.
enum To {
    Screen(io::Stdout),
    /// What is no plain file, or was opened by another program.
    Straight(File),
    Part(Box<Part>),
}

impl Out {
    /// Refuses to write over a file that is read, or to write beside its place
    /// into one.
    pub fn spare(&self, files: &[PathBuf]) -> Answer<()> {
        let Some(out) = &self.file else {
            return Ok(());
        };
        let target = Target::find(out).ok().flatten();
        let part = target.map(|target| target.beside());
        for file in files {
            let over = same(out, file);
            if over || part.as_ref().is_some_and(|part| same(part, file)) {
                let read = if is_input(file) {
                    "standard input".to_string()
                } else {
                    file.display().to_string()
                };
                let until = if over { "" } else { ", until it is whole," };
                return Err(Failure::usage(format!(
                    "--out {}{until} would write over {read}, which is read",
                    out.display()
                )));
            }
        }
        Ok(())
    }

    /// Whether it could be opened. It is written to only when a job has ended,
    /// which may be long after.
    pub fn check(&self) -> Answer<()> {
        let Some(path) = &self.file else {
            return Ok(());
        };
        match Out::target(path)? {
            // It is made, and goes again.
            Some(target) => target.open()?.remove(),
            // To open a pipe would wait for who reads it.
            None => Ok(()),
        }
    }

    /// Whether what is written shows only when it is whole.
    pub fn shows_whole(&self) -> bool {
        let path = self.file.as_ref();
        path.is_some_and(|path| Target::find(path).is_ok_and(|target| target.is_some()))
    }

    /// Whether a person looks at what is written, as it comes.
    pub fn is_terminal(&self) -> bool {
        self.file.is_none() && io::stdout().is_terminal()
    }

    pub fn open(&self) -> Answer<Open> {
        let Some(path) = &self.file else {
            return Ok(Open {
                called: "standard output".to_string(),
                to: To::Screen(io::stdout()),
            });
        };
        let called = path.display().to_string();
        if let Some(target) = Out::target(path)? {
            let to = To::Part(Box::new(target.open()?));
            return Ok(Open { called, to });
        }
        let file = File::create(path).map_err(|error| Failure::io(&called, &error))?;
        let to = To::Straight(file);
        Ok(Open { called, to })
    }

    /// The plain file that it leads to, if any.
    fn target(path: &Path) -> Answer<Option<Target>> {
        Target::find(path).map_err(|error| Failure::io(path.display(), &error))
    }
}

/// The folder that a file stands in.
pub fn folder_of(path: &Path) -> &Path {
    match path.parent() {
        Some(parent) if parent != Path::new("") => parent,
        _ => Path::new("."),
    }
}

/// Whether a path stands for standard input.
fn is_input(path: &Path) -> bool {
    path == Path::new("-")
}

/// Whether a path that is written and one that is read lead to one file, or
/// would if it were there.
fn same(written: &Path, read: &Path) -> bool {
    let found = if is_input(read) {
        let input = io::stdin().as_fd().try_clone_to_owned();
        input.and_then(|input| File::from(input).metadata())
    } else {
        fs::metadata(read)
    };
    match (fs::metadata(written), found) {
        (Ok(one), Ok(other)) => folder::same(&one, &other),
        (Err(_), Err(_)) => {
            written.file_name().is_some()
                && written.file_name() == read.file_name()
                && same_folder(folder_of(written), folder_of(read))
        }
        _ => false,
    }
}

/// Whether two paths are one folder's, or would be if it were there.
fn same_folder(one: &Path, other: &Path) -> bool {
    match (fs::canonicalize(one), fs::canonicalize(other)) {
        (Ok(one), Ok(other)) => one == other,
        (Err(_), Err(_)) => path::absolute(one).ok() == path::absolute(other).ok(),
        _ => false,
    }
}

impl Open {
    /// Writes bytes, and hands them on at once.
    pub fn write(&mut self, bytes: &[u8]) -> Answer<()> {
        let written = match &mut self.to {
            To::Screen(screen) => screen.write_all(bytes).and_then(|()| screen.flush()),
            To::Straight(file) => file.write_all(bytes),
            To::Part(part) => return part.write(bytes),
        };
        written.map_err(|error| self.failed(&error))
    }

    /// Ends it: a plain file is then whole, on the disk, and under its name.
    pub fn close(self) -> Answer<()> {
        match self.to {
            To::Part(part) => part.close(),
            To::Straight(ref file) if file.metadata().is_ok_and(|found| found.is_file()) => {
                file.sync_all().map_err(|error| self.failed(&error))
            }
            _ => Ok(()),
        }
    }

    fn failed(&self, error: &io::Error) -> Failure {
        Failure::io(&self.called, error).and("What was written is not whole.")
    }
}
