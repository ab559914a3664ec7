//! A file that is written beside the one that it is to be, and renamed when it
//! is whole, so that no file stands under its own name that is not.

use super::target::Target;
use crate::failure::{Answer, Failure};
use crate::folder::Folder;
use std::fs::{self, File, Permissions};
use std::io::{self, Write};
use std::os::unix::fs::{fchown, MetadataExt, PermissionsExt};

/// The file that is written, locked. Where it is given up it is removed, unless
/// it was told that it stays.
pub struct Part {
    target: Target,
    folder: Folder,
    file: File,
    stays: bool,
}

impl Part {
    /// Takes one that was just made for this program, and locked.
    pub fn new(target: Target, folder: Folder, file: File) -> Answer<Part> {
        let part = Part {
            target,
            folder,
            file,
            stays: false,
        };
        if !part.is_there()? {
            // Another program took it for one that was left.
            return Err(part.target.busy());
        }
        part.like_older()?;
        Ok(part)
    }

    pub fn write(&mut self, bytes: &[u8]) -> Answer<()> {
        self.file
            .write_all(bytes)
            .map_err(|error| self.not_whole(&error))
    }

    /// Flushes it, and gives it its name.
    pub fn close(mut self) -> Answer<()> {
        self.file
            .sync_all()
            .map_err(|error| self.not_whole(&error))?;
        let called = &self.target.called;
        if !self.is_there()? {
            return Err(Failure::broken(format!(
                "{}: another program removed it or put another in its place{}",
                self.target.shown.display(),
                self.as_it_was(": ")
            )));
        }
        self.stays = true;
        self.folder
            .rename(&self.target.part, &self.target.name)
            .map_err(|error| {
                Failure::io(called, &error).and(format!(
                    "What was written is whole, and stands in {}.",
                    self.target.shown.display()
                ))
            })?;
        self.folder.flush().map_err(|error| {
            Failure::io(self.folder.path.display(), &error).and(format!(
                "{called} is whole, but might be gone if the machine stopped now."
            ))
        })?;
        if self.target.is_at(&self.folder) {
            return Ok(());
        }
        let folder = self.folder.now();
        let now = folder.as_ref().unwrap_or(&self.folder.path);
        Err(Failure::broken(format!(
            "{called} no longer leads to where it was written: what was written is whole, and is {} now",
            now.join(&self.target.name).display()
        )))
    }

    /// That the older file is as it was, behind other words, where that is
    /// known: what stands under a name that leads elsewhere is another's.
    fn as_it_was(&self, behind: &str) -> String {
        if self.target.is_at(&self.folder) {
            format!("{behind}{} is as it was", self.target.called)
        } else {
            String::new()
        }
    }

    /// Removes it again.
    pub fn remove(mut self) -> Answer<()> {
        self.stays = true;
        self.folder
            .remove(&self.target.part)
            .map_err(|error| self.target.failed(&error))
    }

    /// Whether its name still leads to it.
    fn is_there(&self) -> Answer<bool> {
        self.folder
            .holds(&self.target.part, &self.file)
            .map_err(|error| self.target.failed(&error))
    }

    /// Gives it the permissions of the older file, its owner and its group, as
    /// far as this user may; and finds out whether it may take its place.
    fn like_older(&self) -> Answer<()> {
        let Some(older) = &self.target.older else {
            return Ok(());
        };
        let io = |error| self.target.failed(&error);
        let own = self.file.metadata().map_err(io)?;
        let folder = fs::metadata(&self.folder.path).map_err(io)?;
        let only_owners = folder.mode() & 0o1000 != 0;
        if only_owners && ![0, older.uid(), folder.uid()].contains(&own.uid()) {
            return Err(Failure::broken(format!(
                "{}: it is another user's, and in this folder only its owner may replace it",
                self.target.called
            )));
        }
        if self.target.is_mounted() {
            return Err(Failure::broken(format!(
                "{}: it is mounted there by itself, and cannot be replaced: mount its folder, or write to standard output",
                self.target.called
            )));
        }
        let mut mode = older.mode() & 0o777;
        if fchown(&self.file, Some(older.uid()), Some(older.gid())).is_err()
            && fchown(&self.file, None, Some(older.gid())).is_err()
        {
            // What the older one's group might do, another group may not.
            mode = mode & 0o707 | (mode & 0o007) << 3;
        }
        self.file
            .set_permissions(Permissions::from_mode(mode))
            .map_err(io)
    }

    /// A failure to write. What was written may be of use, and stays.
    fn not_whole(&mut self, error: &io::Error) -> Failure {
        self.stays = self.file.metadata().is_ok_and(|found| found.len() > 0);
        let failure = Failure::io(self.target.shown.display(), error);
        failure.and(if self.stays {
            let as_it_was = self.as_it_was("; ");
            format!("What was written is not whole, and stays there{as_it_was}.")
        } else {
            format!("Nothing was written{}.", self.as_it_was(": "))
        })
    }
}

impl Drop for Part {
    fn drop(&mut self) {
        if !self.stays {
            self.target.give_up(&self.folder, &self.file);
        }
    }
}
