//! Where a new job may be begun.

use super::lock::{self, Ours};
use super::{disk, LOCK, NEW, ROWS, SEQUENCES, STATE};
use crate::failure::{Answer, Failure};
use crate::folder::Folder;
use crate::out::Out;
use crate::say;
use crate::table;
use std::fs;

/// A folder in which a new job may be begun: an empty one, or one that a
/// program left that was killed before its first save. That has a lock which
/// says so, and is made first, plain files, and no rows yet: what only has the
/// same names is not written over. Where there is a job, the user is told
/// how to go on with it and have its table where it was to go.
pub fn may_begin(folder: &Folder, out: &Out) -> Answer<()> {
    let called = folder.path.display();
    let mut names = Vec::new();
    for entry in fs::read_dir(&folder.path).map_err(|error| Failure::io(&called, &error))? {
        let entry = entry.map_err(|error| Failure::io(&called, &error))?;
        names.push(entry.file_name());
    }
    if names.iter().any(|name| name == STATE) {
        return Err(Failure::usage(format!(
            "{called} holds a search already: {} goes on with it",
            say::again(&folder.path, out)
        )));
    }
    // The lock is made before all others, and these only after it says so.
    let left = match lock::ours(folder)? {
        Ours::Whole => &[LOCK, SEQUENCES, ROWS, NEW][..],
        Ours::Begun => &[LOCK],
        Ours::Not => &[],
    };
    for name in names {
        if left.iter().all(|left| name != *left) {
            return Err(Failure::damaged(format!(
                "{called} is no job, and holds other files ({}): it is left alone",
                name.display()
            )));
        }
        // One that another program is just beginning may be renamed meanwhile.
        disk::plain_or_none(folder, &name.to_string_lossy())?;
    }
    let rows = folder.look(ROWS);
    if rows.is_ok_and(|rows| rows.is_some_and(|rows| rows.len() > table::HEADER.len() as u64)) {
        return Err(Failure::damaged(format!(
            "{}: it has rows, but the search that listed them is not saved beside it: it is left alone",
            folder.join(ROWS).display()
        )));
    }
    // The names that were read are those of the folder's path.
    match disk::moved(folder) {
        Some(words) => Err(Failure::broken(words)),
        None => Ok(()),
    }
}
