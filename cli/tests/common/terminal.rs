//! A terminal of the tests' own.

use std::ffi::{c_char, CStr};
use std::fs::File;
use std::os::fd::FromRawFd;
use std::os::unix::fs::OpenOptionsExt;

// The C library's.
extern "C" {
    fn posix_openpt(flags: i32) -> i32;
    fn grantpt(terminal: i32) -> i32;
    fn unlockpt(terminal: i32) -> i32;
    fn ptsname_r(terminal: i32, name: *mut c_char, size: usize) -> i32;
}

/// To read and to write; and not to become the one that the test runs in.
const BOTH: i32 = 2;
const NOT_OURS: i32 = 0x100;

/// A terminal: the side where a person sits, and the side of a program. Where
/// the system has none there is nothing to look at.
pub fn terminal() -> Option<(File, File)> {
    let mut name = [0; 100];
    // SAFETY: the file is opened here and belongs to no other; the name is
    // written to an array of the size that is passed.
    let person = unsafe {
        let person = posix_openpt(BOTH | NOT_OURS);
        if person < 0 {
            println!("this system has no terminals: not tested");
            return None;
        }
        assert_eq!(grantpt(person), 0);
        assert_eq!(unlockpt(person), 0);
        assert_eq!(ptsname_r(person, name.as_mut_ptr(), name.len()), 0);
        File::from_raw_fd(person)
    };
    // SAFETY: it ends with a 0.
    let name = unsafe { CStr::from_ptr(name.as_ptr()) };
    let name = name.to_str().expect("a name that is text");
    let program = File::options()
        .read(true)
        .write(true)
        .custom_flags(NOT_OURS)
        .open(name);
    Some((person, program.expect("the program's side")))
}
