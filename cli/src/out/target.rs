//! The plain file that a path leads to, and the one beside it that is written
//! until it is whole.

use super::folder_of;
use super::part::Part;
use crate::failure::{Answer, Failure};
use crate::folder::{self, Folder};
use std::ffi::{OsStr, OsString};
use std::fs::{self, File, Metadata};
use std::io;
use std::os::unix::ffi::{OsStrExt, OsStringExt};
use std::path::{Path, PathBuf};

/// What the name of the file that is being written has behind the other's.
const BEHIND: &str = ".tulfasheq-part";
/// The most bytes of a name.
const MOST_NAME: usize = 255;
/// The most links that are followed.
const MOST_LINKS: usize = 40;
const TOO_MANY_LINKS: i32 = 40;
/// What a file system says that has no locks.
const NO_LOCKS: [i32; 4] = [22, 37, 38, 95];

/// A plain file that is to be, or to be replaced, links followed.
pub struct Target {
    /// The path that was given.
    given: PathBuf,
    /// What it is called in messages.
    pub(super) called: String,
    /// Its folder, without links.
    folder: PathBuf,
    pub(super) name: OsString,
    /// The name of the file that is written.
    pub(super) part: OsString,
    /// That file in messages.
    pub(super) shown: PathBuf,
    pub(super) older: Option<Metadata>,
    /// Whether that file's name is of this program alone, and no lock is wanted.
    alone: bool,
}

impl Target {
    /// Where a path leads; to none, where it leads to something that is no
    /// plain file, or by way of /proc (as `/dev/stdout` does, or a file that
    /// the shell has open), which is written as it is.
    pub fn find(path: &Path) -> io::Result<Option<Target>> {
        match fs::metadata(path) {
            Ok(found) if found.is_dir() => return Err(io::ErrorKind::IsADirectory.into()),
            Ok(found) if !found.is_file() => return Ok(None),
            _ => {}
        }
        let mut at = path.to_path_buf();
        for links in 0..MOST_LINKS {
            let bytes = at.as_os_str().as_bytes();
            let folder = fs::canonicalize(folder_of(&at))?;
            if folder.starts_with("/proc") {
                return Ok(None);
            }
            let name = match at.file_name() {
                Some(name) if !bytes.ends_with(b"/") && !bytes.ends_with(b"/.") => name,
                _ => return Err(io::ErrorKind::IsADirectory.into()),
            };
            let older = match fs::symlink_metadata(folder.join(name)) {
                Ok(found) if found.is_symlink() => {
                    at = folder.join(fs::read_link(folder.join(name))?);
                    continue;
                }
                Ok(found) => Some(found),
                Err(error) if error.kind() == io::ErrorKind::NotFound => None,
                Err(error) => return Err(error),
            };
            let part = part_of(name, BEHIND);
            let shown = match links {
                0 => path.with_file_name(&part),
                _ => folder.join(&part),
            };
            return Ok(Some(Target {
                given: path.to_path_buf(),
                called: path.display().to_string(),
                name: name.to_os_string(),
                folder,
                part,
                shown,
                older,
                alone: false,
            }));
        }
        Err(io::Error::from_raw_os_error(TOO_MANY_LINKS))
    }

    /// The path of the file that is written.
    pub fn beside(&self) -> PathBuf {
        self.folder.join(&self.part)
    }

    /// Makes that file, of this program alone. An older one that may not be
    /// written is not replaced.
    pub fn open(mut self) -> Answer<Part> {
        let io = |error| Failure::io(&self.called, &error);
        if self.older.is_some() {
            let older = self.folder.join(&self.name);
            File::options().write(true).open(older).map_err(io)?;
        }
        let folder = Folder::open(&self.folder).map_err(io)?;
        // Until the older one's permissions are set, it is nobody else's.
        let mode = if self.older.is_some() { 0o600 } else { 0o666 };
        for _ in 0..10 {
            let new = match folder.create(&self.part, mode) {
                Err(error) if error.kind() == io::ErrorKind::AlreadyExists && !self.alone => None,
                new => Some(new.map_err(|error| self.failed(&error))?),
            };
            let locks = match &new {
                Some(file) => self
                    .hold(file)
                    .inspect_err(|_| self.give_up(&folder, file))?,
                None => self.clear(&folder)?,
            };
            match new {
                Some(file) if locks || self.alone => return Part::new(self, folder, file),
                Some(file) => self.give_up(&folder, &file),
                None => {}
            }
            if !locks {
                self.be_alone();
            }
        }
        Err(self.busy())
    }

    /// Without locks no program can tell what another left from what another
    /// writes: each has a file of its own.
    fn be_alone(&mut self) {
        let behind = format!(".{}{BEHIND}", std::process::id());
        self.part = part_of(&self.name, &behind);
        self.shown.set_file_name(&self.part);
        self.alone = true;
    }

    /// Removes the file that is written, unless its name is another's by now.
    pub(super) fn give_up(&self, folder: &Folder, file: &File) {
        if folder.holds(&self.part, file).unwrap_or(false) {
            let _ = folder.remove(&self.part);
        }
    }

    /// Removes what a program left that was killed, and answers whether the
    /// file system has locks: where it has none, nothing is removed.
    fn clear(&self, folder: &Folder) -> Answer<bool> {
        let io = |error| self.failed(&error);
        match folder.look(&self.part).map_err(io)? {
            Some(found) if found.is_file() => {}
            Some(_) => {
                let shown = self.shown.display();
                let words = format!("{shown}: it is no plain file, and is left alone");
                return Err(self.until_whole(Failure::broken(words)));
            }
            None => return Ok(true),
        }
        let opened = match folder.write(&self.part) {
            // Another user's, which a folder's owner may remove.
            Err(error) if error.kind() == io::ErrorKind::PermissionDenied => {
                folder.read(&self.part)
            }
            opened => opened,
        };
        let left = match opened {
            Err(error) if error.kind() == io::ErrorKind::NotFound => return Ok(true),
            opened => opened.map_err(|error| self.in_the_way(&error))?,
        };
        let locks = self.hold(&left)?;
        // It may be whole since, and have its own name.
        if locks && folder.holds(&self.part, &left).map_err(io)? {
            let removed = folder.remove(&self.part);
            removed.map_err(|error| self.in_the_way(&error))?;
        }
        Ok(locks)
    }

    /// Locks a file: whether the file system has locks.
    fn hold(&self, file: &File) -> Answer<bool> {
        match folder::lock(file) {
            Ok(true) => Ok(true),
            Ok(false) => Err(self.busy()),
            Err(error) if error.raw_os_error().is_some_and(|e| NO_LOCKS.contains(&e)) => Ok(false),
            Err(error) => Err(self.failed(&error)),
        }
    }

    /// One that is there, and cannot be removed.
    fn in_the_way(&self, error: &io::Error) -> Failure {
        let failure = self.failed(error);
        if error.kind() != io::ErrorKind::PermissionDenied {
            return failure;
        }
        failure.and("Another user's program left it, or is writing it: have it removed, or write to another file by --out.")
    }

    /// Whether the path that was given leads to the folder and the name that
    /// it led to.
    pub(super) fn is_at(&self, folder: &Folder) -> bool {
        match Target::find(&self.given) {
            Ok(Some(now)) => now.name == self.name && folder.is_at(&now.folder),
            _ => false,
        }
    }

    pub(super) fn busy(&self) -> Failure {
        Failure::busy(format!(
            "{}: another program is writing it, in {}",
            self.called,
            self.shown.display()
        ))
    }

    /// Whether a file is mounted under its name, as containers do: then no
    /// other can take that.
    pub(super) fn is_mounted(&self) -> bool {
        let path = self.folder.join(&self.name);
        let mut escaped = Vec::new();
        for byte in path.as_os_str().as_bytes() {
            match byte {
                b' ' | b'\t' | b'\n' | b'\\' => escaped.extend(format!("\\{byte:03o}").bytes()),
                byte => escaped.push(*byte),
            }
        }
        let mounts = fs::read("/proc/self/mountinfo").unwrap_or_default();
        mounts
            .split(|byte| *byte == b'\n')
            .any(|line| line.split(|byte| *byte == b' ').nth(4) == Some(&escaped))
    }

    pub(super) fn failed(&self, error: &io::Error) -> Failure {
        self.until_whole(Failure::io(self.shown.display(), error))
    }

    /// What the file with the other name is.
    fn until_whole(&self, failure: Failure) -> Failure {
        failure.and(format!(
            "{} is written there until it is whole.",
            self.called
        ))
    }
}

/// The name of the file that is written in the place of another.
fn part_of(name: &OsStr, behind: &str) -> OsString {
    let mut bytes = name.as_bytes().to_vec();
    let mut size = bytes.len().min(MOST_NAME - behind.len());
    // A letter of several bytes is not cut through.
    while bytes.get(size).is_some_and(|byte| byte & 0xc0 == 0x80) {
        size -= 1;
    }
    bytes.truncate(size);
    bytes.extend_from_slice(behind.as_bytes());
    OsString::from_vec(bytes)
}

#[cfg(test)]
mod tests {
    use super::{part_of, BEHIND};
    use std::ffi::{OsStr, OsString};

    #[test]
    fn a_name_that_would_be_too_long_is_cut() {
        let part_of = |name: &OsStr| part_of(name, BEHIND);
        assert_eq!(part_of(OsStr::new("a.tsv")), "a.tsv.tulfasheq-part");
        for (name, letter) in [
            ("a".repeat(255), 1),
            ("ä".repeat(127), 2),
            ("€".repeat(85), 3),
        ] {
            let part = part_of(OsStr::new(&name)).into_string().expect("text");
            assert!(part.len() <= 255 && part.len() > 255 - letter, "{part}");
            assert!(part.ends_with(".tulfasheq-part"));
        }
        let exact = OsString::from("b".repeat(240));
        assert_eq!(part_of(&exact).len(), 255);
    }
}
