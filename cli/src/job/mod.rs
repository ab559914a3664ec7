//! A job: a folder that holds all of a search.
//!
//! | file | what it holds |
//! |---|---|
//! | `sequences.fa` | the FASTA file as it was read |
//! | `rows.tsv` | the table so far; behind what the state counts there may be rows of a leg that was not saved |
//! | `state` | the saved search, and how much of the table it goes with |
//! | `state.new` | a state that is being written |
//! | `lock` | locked by the program that works on the job |
//!
//! After each leg the rows are flushed to disk, then the state is written to a
//! file of its own, flushed, renamed over the last one, and the folder is
//! flushed. So whenever the program is killed, or the machine stops, the state
//! is a whole one, and the part of the table that it counts is on the disk.
//!
//! All of it goes by a handle of the folder, and by one of the table: a folder
//! that is moved while the job runs is written where it is, and one that takes
//! its place is not touched.

mod about;
mod begin;
mod disk;
mod lock;
mod state;

pub use about::About;
pub use state::UNKNOWN;

use crate::failure::{Answer, Failure};
use crate::folder::Folder;
use crate::legs::Search;
use crate::out::{folder_of, Out};
use crate::sequences::Sequences;
use crate::sum::Words;
use crate::table;
use crate::template::Template;
use state::{Layout, State};
use std::fs::{self, File};
use std::io::{self, Seek, SeekFrom, Write};
use std::os::unix::fs::MetadataExt;
use std::path::{Path, PathBuf};
use std::time::Duration;

const SEQUENCES: &str = "sequences.fa";
pub const ROWS: &str = "rows.tsv";
const STATE: &str = "state";
const NEW: &str = "state.new";
const LOCK: &str = "lock";

/// The paths of a job: its folder and the files in it.
pub fn paths(folder: &Path) -> Vec<PathBuf> {
    let files = [SEQUENCES, ROWS, STATE, NEW, LOCK];
    std::iter::once(folder.to_path_buf())
        .chain(files.iter().map(|name| folder.join(name)))
        .collect()
}

/// A job that this program works on.
pub struct Job {
    pub about: About,
    table: File,
    /// Held as long as the job is, as the table is.
    _lock: File,
}

impl Job {
    /// Makes the folder of a new search, whose first save this is. A folder
    /// that is there already may be empty, or be what a program left that was
    /// killed before its first save.
    pub fn create(
        folder: &Path,
        sequences: Sequences,
        template: Template,
        quorum: u64,
        saved: Vec<u8>,
        out: &Out,
    ) -> Answer<Job> {
        let made = match fs::create_dir(folder) {
            Ok(()) => true,
            Err(error) if error.kind() == io::ErrorKind::AlreadyExists => false,
            Err(error) => return Err(Failure::io(folder.display(), &error)),
        };
        if made {
            // The folder's own name.
            disk::flush_path(folder_of(folder))?;
        }
        let folder = Folder::open(folder).map_err(|error| Failure::io(folder.display(), &error))?;
        if !made {
            if lock::held(&folder)? {
                return Err(lock::busy(&folder));
            }
            begin::may_begin(&folder, out)?;
        }
        let lock = lock::take(&folder)?;
        // Another one may have begun since.
        begin::may_begin(&folder, out)?;
        disk::write_flushed(&folder, SEQUENCES, &sequences.file)?;
        let table = disk::write_flushed(&folder, ROWS, table::HEADER.as_bytes())?;
        lock::hold(&table, &folder, ROWS)?;
        let mut sum = Words::none();
        sum.and(table::HEADER.as_bytes());
        let state = State {
            layout: Layout::Two,
            steps: 0,
            rows: 0,
            bytes: table::HEADER.len() as u64,
            table: sum.sum(),
            sequences: Words::of(&sequences.file),
            time: Some(0),
            saved,
        };
        let held = table.try_clone();
        let about = About {
            table: held.map_err(|error| disk::broken(&folder, ROWS, &error))?,
            folder,
            sequences,
            template,
            quorum,
            next: (1, 0),
            state,
            sum,
        };
        let mut job = Job {
            about,
            table,
            _lock: lock,
        };
        job.seek_end()?;
        // A state never stands there without what it goes with.
        disk::flush(&job.about.folder)?;
        job.write_state()?;
        Ok(job)
    }

    /// Takes a job to go on with it: what the table has behind the rows that
    /// the state counts is cut off. Those rows are the motifs below the saved
    /// place; what is cut is at that place or after it, or an unfinished line.
    pub fn open(about: About) -> Answer<Job> {
        // Nothing was made yet in the folder, which may have been refused.
        disk::plain_or_none(&about.folder, NEW)?;
        let lock = lock::take(&about.folder)?;
        let table = disk::open_to_write(&about.folder, ROWS)?;
        lock::hold(&table, &about.folder, ROWS)?;
        let mut about = about.again(&table)?;
        if about.state.layout == Layout::One {
            about.state.layout = Layout::Two;
            about.state.table = about.sum.sum();
            about.state.sequences = Words::of(&about.sequences.file);
        }
        let mut job = Job {
            about,
            table,
            _lock: lock,
        };
        job.cut()?;
        Ok(job)
    }

    /// Goes to where the rows of the next leg are written.
    fn seek_end(&mut self) -> Answer<()> {
        let bytes = self.about.state.bytes;
        self.table
            .seek(SeekFrom::Start(bytes))
            .map_err(|error| self.broken(ROWS, &error))?;
        Ok(())
    }

    fn cut(&mut self) -> Answer<()> {
        let bytes = self.about.state.bytes;
        let cut = match self.table.metadata() {
            Ok(file) if file.len() > bytes => self
                .table
                .set_len(bytes)
                .and_then(|()| self.table.sync_all()),
            Ok(_) => Ok(()),
            Err(error) => Err(error),
        };
        cut.map_err(|error| self.broken(ROWS, &error))?;
        self.seek_end()
    }

    /// Keeps what a leg brought: lines of the table, the sum of the table with
    /// them, the search at its new place, and the time so far.
    pub fn keep(
        &mut self,
        lines: &[u8],
        sum: &Words,
        search: &Search,
        time: Duration,
    ) -> Answer<()> {
        if !lines.is_empty() {
            self.table
                .write_all(lines)
                .and_then(|()| self.table.sync_all())
                .map_err(|error| self.broken(ROWS, &error))?;
        }
        // No state counts rows that nobody can read any more.
        if self.lost_table() {
            return Err(Failure::broken(format!(
                "{}: it was removed while the job ran, and its rows are lost: the search can only be begun again, in another folder or when this one is removed",
                self.about.folder.join(ROWS).display()
            )));
        }
        let about = &mut self.about;
        about.sum.clone_from(sum);
        let state = &mut about.state;
        state.steps = search.steps;
        state.rows = search.rows;
        state.bytes += lines.len() as u64;
        state.table = sum.sum();
        let time = u64::try_from(time.as_millis()).unwrap_or(u64::MAX);
        // What was spent before is not known later either.
        state.time = state.time.map(|_| time);
        state.saved.clone_from(&search.saved);
        self.write_state()
    }

    /// Whether the table was removed while the job ran.
    pub fn lost_table(&self) -> bool {
        self.table.metadata().is_ok_and(|table| table.nlink() == 0)
    }

    /// Writes the state to a file of its own, renames it over the last one, and
    /// flushes all of it.
    fn write_state(&mut self) -> Answer<()> {
        let folder = &self.about.folder;
        let text = self.about.state.text();
        disk::write_flushed(folder, NEW, text.as_bytes()).inspect_err(|_| {
            // Half a state is of no use, and where the disk is full its room is.
            let _ = folder.remove(NEW);
        })?;
        folder
            .rename(NEW, STATE)
            .map_err(|error| self.broken(STATE, &error))?;
        disk::flush(folder)
    }

    fn broken(&self, name: &str, error: &io::Error) -> Failure {
        disk::broken(&self.about.folder, name, error)
    }
}
