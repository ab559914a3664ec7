//! What a job is, as its folder says.

use super::disk::{self, Bytes};
use super::state::{Layout, State};
use super::{lock, ROWS, SEQUENCES, STATE};
use crate::counted::grouped;
use crate::failure::{Answer, Failure};
use crate::folder::{self, Folder};
use crate::legs;
use crate::refusals;
use crate::sequences::{self, Sequences};
use crate::sum::{Sum, Words};
use crate::template::Template;
use std::fs::{self, File};
use std::io::{self, Read};
use std::path::{Path, PathBuf};
use std::time::Duration;

/// The most bytes of a state: far more than any has.
const MOST_STATE: u64 = 65_536;

/// The bytes of the table that are read at a time.
const PIECE: usize = 256 * 1024;

const PAGE: usize = 4_096;

/// A job, which may be another program's at this moment.
pub struct About {
    pub(super) folder: Folder,
    pub sequences: Sequences,
    pub template: Template,
    pub quorum: u64,
    /// The letters and the number of the next candidate; 0 and 0 where the
    /// search has ended.
    pub next: (u64, u64),
    pub(super) state: State,
    /// The table, held open.
    pub(super) table: File,
    /// The sum of what the state counts of it.
    pub(super) sum: Words,
}

impl About {
    /// Reads a folder, all of it, and changes nothing in it.
    pub fn read(folder: &Path) -> Answer<About> {
        About::of(open_folder(folder)?)
    }

    /// The same of a folder that is held open.
    fn of(folder: Folder) -> Answer<About> {
        let state = read_state(&folder)?;
        let bytes = disk::read_whole(&folder, SEQUENCES, sequences::MOST_BYTES)?;
        if state.layout.sum(&bytes) != state.sequences {
            return Err(changed(&folder, SEQUENCES));
        }
        let called = folder.join(SEQUENCES).display().to_string();
        let sequences =
            Sequences::new(called, bytes).map_err(|failure| Failure::damaged(failure.words))?;
        let restored = legs::restored(&sequences, &state.saved).map_err(|refusal| {
            refusals::of_save(refusal, &folder.join(STATE).display().to_string())
        })?;
        let table = disk::open(&folder, ROWS)?;
        let mut about = About {
            folder,
            template: restored.template,
            quorum: restored.quorum,
            next: restored.next,
            sequences,
            state,
            table,
            sum: Words::none(),
        };
        about.sum = about.hand_on(|_| Ok(()))?;
        Ok(about)
    }

    /// The same, where another program may have gone on with it since, or put
    /// another table in its place than the open one.
    pub(super) fn again(self, table: &File) -> Answer<About> {
        let same = match (self.table.metadata(), table.metadata()) {
            (Ok(one), Ok(other)) => folder::same(&one, &other),
            _ => false,
        };
        if same && read_state(&self.folder)? == self.state {
            return Ok(self);
        }
        About::of(self.folder)
    }

    pub fn ended(&self) -> bool {
        self.next == (0, 0)
    }

    pub fn steps(&self) -> u64 {
        self.state.steps
    }

    pub fn rows(&self) -> u64 {
        self.state.rows
    }

    /// The time spent so far, in all programs that worked on it, where it is
    /// known.
    pub fn time(&self) -> Option<Duration> {
        self.state.time.map(Duration::from_millis)
    }

    /// The sum of the table so far.
    pub fn sum(&self) -> &Words {
        &self.sum
    }

    pub fn saved(&self) -> &[u8] {
        &self.state.saved
    }

    /// Whether a program works on it now.
    pub fn running(&self) -> Answer<bool> {
        lock::held(&self.folder)
    }

    /// What is to be said where its folder is no longer where it was.
    pub fn moved(&self) -> Option<String> {
        disk::moved(&self.folder)
    }

    /// Whether its folder is gone, and all that was saved in it.
    pub fn is_removed(&self) -> bool {
        self.folder.is_removed()
    }

    /// The folder's path by which it can be gone on with: where it was moved,
    /// the one that it has now, as far as the system tells.
    pub fn place(&self) -> Option<PathBuf> {
        if self.folder.is_there() {
            return Some(self.folder.path.clone());
        }
        self.folder.now()
    }

    /// The part of the table that the state counts.
    pub fn table(&self) -> Answer<Bytes> {
        let file = self.table.try_clone();
        Ok(Bytes {
            file: file.map_err(|error| disk::broken(&self.folder, ROWS, &error))?,
            at: 0,
            end: self.state.bytes,
        })
    }

    /// Hands it on, piece by piece. That it is what the state counts is known
    /// at its end. Answers with the sum of it by which it is counted now.
    pub fn hand_on(&self, mut to: impl FnMut(&[u8]) -> Answer<()>) -> Answer<Words> {
        let mut table = self.table()?;
        // The system copies faster to where a page begins.
        let mut room = vec![0; PIECE + PAGE];
        let begin = room.as_ptr().align_offset(PAGE).min(PAGE);
        let piece = &mut room[begin..begin + PIECE];
        let mut words = Words::none();
        let mut bytes = Sum::NONE;
        loop {
            match table.read(piece) {
                Ok(0) => break,
                Ok(size) => {
                    words.and(&piece[..size]);
                    if self.state.layout == Layout::One {
                        bytes = bytes.and(&piece[..size]);
                    }
                    to(&piece[..size])?;
                }
                Err(error) if error.kind() == io::ErrorKind::Interrupted => {}
                Err(error) => return Err(disk::broken(&self.folder, ROWS, &error)),
            }
        }
        if table.at < table.end {
            return Err(Failure::damaged(format!(
                "{}: it has {} bytes, and the search that is saved beside it had written {}: rows are missing (was the folder copied while the job was running?)",
                self.folder.join(ROWS).display(),
                grouped(table.at),
                grouped(table.end)
            )));
        }
        let sum = match self.state.layout {
            Layout::One => bytes,
            Layout::Two => words.sum(),
        };
        if sum != self.state.table {
            return Err(changed(&self.folder, ROWS));
        }
        Ok(words)
    }

    /// Whether the table begins with what the state counts.
    pub fn check_table(&self) -> Answer<()> {
        self.hand_on(|_| Ok(())).map(|_| ())
    }
}

/// A file whose bytes are not those that the state goes with.
fn changed(folder: &Folder, name: &str) -> Failure {
    Failure::damaged(format!(
        "{}: it is not what it was when the search was saved: it was changed, or belongs to another job",
        folder.join(name).display()
    ))
}

/// Opens the folder of a job.
fn open_folder(path: &Path) -> Answer<Folder> {
    let called = path.display();
    match fs::metadata(path) {
        Ok(found) if found.is_dir() => {
            Folder::open(path).map_err(|error| Failure::io(called, &error))
        }
        Ok(_) => Err(Failure::damaged(format!(
            "{called} is no folder, and so no job"
        ))),
        Err(error) => Err(Failure::io(called, &error)),
    }
}

/// The state of a folder.
fn read_state(folder: &Folder) -> Answer<State> {
    if !disk::plain_or_none(folder, STATE)? {
        // One that is just being begun has no state yet.
        if lock::held(folder)? {
            return Err(lock::busy(folder));
        }
        return Err(Failure::damaged(format!(
            "{} holds no saved search: it is no job, or was stopped before its first save (then the search can be begun again with --job)",
            folder.path.display()
        )));
    }
    let bytes = disk::read_whole(folder, STATE, MOST_STATE)?;
    State::read(&bytes).map_err(|bad| {
        let called = folder.join(STATE).display().to_string();
        let failure = Failure::damaged(format!("{called}: {}", bad.why));
        match refused(folder, bad.saved) {
            Some(more) => failure.and(more),
            None => failure,
        }
    })
}

/// What the library refuses of the saved search in a state that is damaged:
/// its number and the record tell where the damage is.
fn refused(folder: &Folder, saved: Option<Vec<u8>>) -> Option<String> {
    let bytes = disk::read_whole(folder, SEQUENCES, sequences::MOST_BYTES).ok()?;
    let called = folder.join(SEQUENCES).display().to_string();
    let sequences = Sequences::new(called, bytes).ok()?;
    let refusal = legs::restored(&sequences, &saved?).err()?;
    let state = folder.join(STATE).display().to_string();
    Some(refusals::of_save(refusal, &state).words)
}
