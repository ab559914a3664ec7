//! The lock of a job: the system's, on a file of the folder, and on the table
//! too, since someone may remove the other. It ends with the program that
//! holds it, however that ends.

use super::{disk, LOCK, ROWS};
use crate::failure::{Answer, Failure};
use crate::folder::{self, Folder};
use std::fs::{File, TryLockError};
use std::io::{self, Write};

/// What the file says, so that a folder can be told from one that only has a
/// file of that name.
const WORDS: &[u8] = b"tulfasheq: locked by the program that works on this job\n";

/// Whether a program works on a job.
pub fn held(folder: &Folder) -> Answer<bool> {
    for name in [LOCK, ROWS] {
        if disk::plain_or_none(folder, name)? {
            let file = disk::open(folder, name)?;
            if matches!(file.try_lock_shared(), Err(TryLockError::WouldBlock)) {
                return Ok(true);
            }
        }
    }
    Ok(false)
}

/// Whether a program of ours made it: no file of that name, one that says so,
/// or, where that was stopped in the middle, one that says a part of it.
pub fn ours(folder: &Folder) -> Answer<Ours> {
    if !disk::plain_or_none(folder, LOCK)? {
        return Ok(Ours::Begun);
    }
    let words = disk::read_whole(folder, LOCK, WORDS.len() as u64)?;
    Ok(if words == WORDS {
        Ours::Whole
    } else if WORDS.starts_with(&words) {
        Ours::Begun
    } else {
        Ours::Not
    })
}

/// What a lock says of who made it.
#[derive(Clone, Copy, Debug, PartialEq, Eq)]
pub enum Ours {
    Whole,
    Begun,
    Not,
}

/// Locks a job for this program, as long as the file is held.
pub fn take(folder: &Folder) -> Answer<File> {
    let mut file = open_or_make(folder)?;
    hold(&file, folder, LOCK)?;
    if ours(folder)? == Ours::Begun {
        file.write_all(WORDS)
            .and_then(|()| file.sync_all())
            .map_err(|error| disk::broken(folder, LOCK, &error))?;
    }
    Ok(file)
}

/// The lock's file, which another program may make at the same time.
fn open_or_make(folder: &Folder) -> Answer<File> {
    if !disk::plain_or_none(folder, LOCK)? {
        match folder.create(LOCK, 0o666) {
            Err(error) if error.kind() == io::ErrorKind::AlreadyExists => {}
            made => return made.map_err(|error| disk::broken(folder, LOCK, &error)),
        }
    }
    disk::open_to_write(folder, LOCK)
}

/// Locks an open file of a job.
pub fn hold(file: &File, folder: &Folder, name: &str) -> Answer<()> {
    match folder::lock(file) {
        Ok(true) => Ok(()),
        Ok(false) => Err(busy(folder)),
        Err(error) => Err(disk::broken(folder, name, &error)),
    }
}

/// A job that another program works on.
pub fn busy(folder: &Folder) -> Failure {
    Failure::busy(format!(
        "{}: another program works on this job",
        folder.path.display()
    ))
}
