//! Files of a job's folder that are read whole, and written to the disk before
//! it goes on.

use crate::failure::{Answer, Failure};
use crate::folder::Folder;
use std::fs::File;
use std::io::{self, Read, Write};
use std::os::unix::fs::FileExt;
use std::path::Path;

/// A file of a job could not be read or written.
pub fn broken(folder: &Folder, name: &str, error: &io::Error) -> Failure {
    Failure::io(folder.join(name).display(), error)
}

/// What is to be said of a folder that is no longer where it was.
pub fn moved(folder: &Folder) -> Option<String> {
    if folder.is_there() {
        return None;
    }
    let called = folder.path.display();
    Some(match folder.now() {
        Some(now) => format!(
            "{called} no longer leads to the job's folder, which is {} now.",
            now.display()
        ),
        None if folder.is_removed() => {
            format!("{called} was removed while the job ran, with all that was saved in it.")
        }
        None => format!("{called} no longer leads to the job's folder."),
    })
}

/// A file of a job is a plain file, and no link: to read another could wait for
/// ever, and to write would change what is not the job's.
pub fn plain(folder: &Folder, name: &str) -> Answer<()> {
    if plain_or_none(folder, name)? {
        return Ok(());
    }
    let missing = format!("{}: it is missing", folder.join(name).display());
    Err(Failure::damaged(missing))
}

/// The same of a file that need not be there: whether it is.
pub fn plain_or_none(folder: &Folder, name: &str) -> Answer<bool> {
    match folder.look(name) {
        Ok(Some(found)) if found.is_file() => Ok(true),
        Ok(Some(_)) => Err(Failure::damaged(format!(
            "{}: it is no plain file",
            folder.join(name).display()
        ))),
        Ok(None) => Ok(false),
        Err(error) => Err(broken(folder, name, &error)),
    }
}

/// Opens a plain file that is there, to be read.
pub fn open(folder: &Folder, name: &str) -> Answer<File> {
    plain(folder, name)?;
    folder
        .read(name)
        .map_err(|error| broken(folder, name, &error))
}

/// The same, to be written too.
pub fn open_to_write(folder: &Folder, name: &str) -> Answer<File> {
    plain(folder, name)?;
    folder
        .write(name)
        .map_err(|error| broken(folder, name, &error))
}

/// A plain file's bytes, or so many of them that it is too long.
pub fn read_whole(folder: &Folder, name: &str, most: u64) -> Answer<Vec<u8>> {
    let file = open(folder, name)?;
    let mut bytes = Vec::new();
    file.take(most.saturating_add(1))
        .read_to_end(&mut bytes)
        .map_err(|error| broken(folder, name, &error))?;
    Ok(bytes)
}

/// Makes a file anew, whole and on the disk, in the place of one that may be
/// there.
pub fn write_flushed(folder: &Folder, name: &str, bytes: &[u8]) -> Answer<File> {
    let written = folder.remove(name).and_then(|()| {
        let mut file = folder.create(name, 0o666)?;
        file.write_all(bytes)?;
        file.sync_all()?;
        Ok(file)
    });
    written.map_err(|error| broken(folder, name, &error))
}

/// Flushes the names of a folder's files to the disk.
pub fn flush(folder: &Folder) -> Answer<()> {
    let called = folder.path.display();
    folder.flush().map_err(|error| Failure::io(called, &error))
}

/// The same of a folder that is not held open.
pub fn flush_path(folder: &Path) -> Answer<()> {
    Folder::open(folder)
        .and_then(|folder| folder.flush())
        .map_err(|error| Failure::io(folder.display(), &error))
}

/// So many bytes of an open file, from its first: the file may be written
/// meanwhile, behind them.
pub struct Bytes {
    pub file: File,
    pub at: u64,
    pub end: u64,
}

impl Read for Bytes {
    fn read(&mut self, to: &mut [u8]) -> io::Result<usize> {
        let left = self.end - self.at;
        let most = usize::try_from(left).map_or(to.len(), |left| left.min(to.len()));
        let size = self.file.read_at(&mut to[..most], self.at)?;
        self.at += size as u64;
        Ok(size)
    }
}
