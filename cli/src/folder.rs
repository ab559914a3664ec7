//! A folder that is held open: files are looked for, opened, renamed and
//! removed by that handle, and so in this folder and no other, also where it
//! is moved meanwhile and another one takes its name.

use std::ffi::{c_char, c_int, CString, OsStr};
use std::fs::{self, File, Metadata, OpenOptions, TryLockError};
use std::io;
use std::os::fd::{AsRawFd, FromRawFd};
use std::os::unix::ffi::OsStrExt;
use std::os::unix::fs::{MetadataExt, OpenOptionsExt};
use std::path::{Path, PathBuf};
use std::thread;
use std::time::Duration;

// The C library's, which every program is linked with.
extern "C" {
    fn openat(folder: c_int, name: *const c_char, flags: c_int, ...) -> c_int;
    fn renameat(folder: c_int, name: *const c_char, into: c_int, to: *const c_char) -> c_int;
    fn unlinkat(folder: c_int, name: *const c_char, flags: c_int) -> c_int;
}

// Linux's numbers.
const READ: c_int = 0;
const READ_AND_WRITE: c_int = 2;
const CREATE: c_int = 0o100;
const ONLY_NEW: c_int = 0o200;
/// To open a pipe does not wait for who is at its other end.
const NO_WAIT: c_int = 0o4000;
/// Programs that this one starts do not get it.
const CLOSE: c_int = 0o2_000_000;
/// It is only looked at, for which no permission is wanted.
const LOOK: c_int = 0o10_000_000;
/// A link is not followed.
const NO_LINK: c_int = if cfg!(any(target_arch = "arm", target_arch = "aarch64")) {
    0o100_000
} else {
    0o400_000
};

/// An open folder.
#[derive(Debug)]
pub struct Folder {
    /// The path by which it was opened.
    pub path: PathBuf,
    handle: File,
    /// Whether it may be read, and so be flushed.
    read: bool,
}

impl Folder {
    /// Opens a folder. One that may be written and not read is opened too.
    pub fn open(path: &Path) -> io::Result<Folder> {
        let by = |flags| OpenOptions::new().read(true).custom_flags(flags).open(path);
        let (handle, read) = match by(NO_WAIT) {
            Err(error) if error.kind() == io::ErrorKind::PermissionDenied => (by(LOOK)?, false),
            opened => (opened?, true),
        };
        if !handle.metadata()?.is_dir() {
            return Err(io::ErrorKind::NotADirectory.into());
        }
        Ok(Folder {
            path: path.to_path_buf(),
            handle,
            read,
        })
    }

    /// The path of a file in it, for messages.
    pub fn join(&self, name: impl AsRef<Path>) -> PathBuf {
        self.path.join(name)
    }

    /// What stands under a name, links not followed; nothing may.
    pub fn look(&self, name: impl AsRef<OsStr>) -> io::Result<Option<Metadata>> {
        match self.file(name.as_ref(), LOOK | NO_LINK, 0) {
            Ok(file) => file.metadata().map(Some),
            Err(error) if error.kind() == io::ErrorKind::NotFound => Ok(None),
            Err(error) => Err(error),
        }
    }

    /// Opens a file to be read; a link is an error.
    pub fn read(&self, name: impl AsRef<OsStr>) -> io::Result<File> {
        self.file(name.as_ref(), READ | NO_LINK | NO_WAIT, 0)
    }

    /// Opens a file that is there to be read and written; a link is an error.
    pub fn write(&self, name: impl AsRef<OsStr>) -> io::Result<File> {
        self.file(name.as_ref(), READ_AND_WRITE | NO_LINK | NO_WAIT, 0)
    }

    /// Makes a file; one that is there already is an error.
    pub fn create(&self, name: impl AsRef<OsStr>, mode: u32) -> io::Result<File> {
        self.file(name.as_ref(), READ_AND_WRITE | CREATE | ONLY_NEW, mode)
    }

    fn file(&self, name: &OsStr, flags: c_int, mode: u32) -> io::Result<File> {
        let name = c_name(name)?;
        loop {
            // SAFETY: the handle is open, the name ends with a zero, and the
            // number that comes back is a new file's, which is this one's own.
            unsafe {
                let file = openat(self.handle.as_raw_fd(), name.as_ptr(), flags | CLOSE, mode);
                if file >= 0 {
                    return Ok(File::from_raw_fd(file));
                }
            }
            let error = io::Error::last_os_error();
            if error.kind() != io::ErrorKind::Interrupted {
                return Err(error);
            }
        }
    }

    /// Renames a file, over one that may be there.
    pub fn rename(&self, from: impl AsRef<OsStr>, to: impl AsRef<OsStr>) -> io::Result<()> {
        let (from, to) = (c_name(from.as_ref())?, c_name(to.as_ref())?);
        let handle = self.handle.as_raw_fd();
        // SAFETY: the handle is open, and the names end with a zero.
        done(unsafe { renameat(handle, from.as_ptr(), handle, to.as_ptr()) })
    }

    /// Removes a file; none may be there.
    pub fn remove(&self, name: impl AsRef<OsStr>) -> io::Result<()> {
        let name = c_name(name.as_ref())?;
        // SAFETY: the handle is open, and the name ends with a zero.
        match done(unsafe { unlinkat(self.handle.as_raw_fd(), name.as_ptr(), 0) }) {
            Err(error) if error.kind() == io::ErrorKind::NotFound => Ok(()),
            removed => removed,
        }
    }

    /// Flushes the names of its files to the disk, where it may be read.
    pub fn flush(&self) -> io::Result<()> {
        if self.read {
            self.handle.sync_all()
        } else {
            Ok(())
        }
    }

    /// Whether a name in it leads to an open file.
    pub fn holds(&self, name: impl AsRef<OsStr>, file: &File) -> io::Result<bool> {
        let found = self.look(name)?;
        let file = file.metadata()?;
        Ok(found.is_some_and(|found| same(&found, &file)))
    }

    /// Whether its path still leads to it.
    pub fn is_there(&self) -> bool {
        self.is_at(&self.path)
    }

    /// Whether a path leads to it.
    pub fn is_at(&self, path: &Path) -> bool {
        match (fs::metadata(path), self.handle.metadata()) {
            (Ok(found), Ok(own)) => same(&found, &own),
            _ => false,
        }
    }

    /// Whether it is known to be in no other any more.
    pub fn is_removed(&self) -> bool {
        self.handle.metadata().is_ok_and(|own| own.nlink() == 0)
    }

    /// Where it is now, as far as the system tells.
    pub fn now(&self) -> Option<PathBuf> {
        let link = format!("/proc/self/fd/{}", self.handle.as_raw_fd());
        let path = fs::read_link(link).ok()?;
        self.is_at(&path).then_some(path)
    }
}

/// Whether two are one file.
pub fn same(one: &Metadata, other: &Metadata) -> bool {
    (one.dev(), one.ino()) == (other.dev(), other.ino())
}

/// Locks an open file for this program: whether no other holds it. One that
/// only looks holds it for an instant, so it is tried for a while.
pub fn lock(file: &File) -> io::Result<bool> {
    for _ in 0..10 {
        match file.try_lock() {
            Ok(()) => return Ok(true),
            Err(TryLockError::WouldBlock) => thread::sleep(Duration::from_millis(20)),
            Err(TryLockError::Error(error)) => return Err(error),
        }
    }
    Ok(false)
}

/// A name as the C library reads it.
fn c_name(name: &OsStr) -> io::Result<CString> {
    CString::new(name.as_bytes()).map_err(io::Error::from)
}

/// What a call of the C library answers.
fn done(answer: c_int) -> io::Result<()> {
    if answer == 0 {
        Ok(())
    } else {
        Err(io::Error::last_os_error())
    }
}
