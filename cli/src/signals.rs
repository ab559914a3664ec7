//! The signals that ask a job to stop while it is running. Before and after
//! they do what they always do.

use std::sync::atomic::{AtomicI32, Ordering};

/// Those that a person sends, and those that schedulers do.
const ASKING: [(i32, &str); 6] = [
    (1, "SIGHUP"),
    (2, "SIGINT"),
    (10, "SIGUSR1"),
    (12, "SIGUSR2"),
    (15, "SIGTERM"),
    (24, "SIGXCPU"),
];

const SIGXFSZ: i32 = 25;

const DEFAULT: usize = 0;
const IGNORE: usize = 1;

// The C library's, which every program is linked with. A handler is passed as
// its address, since it may also be one of two numbers.
extern "C" {
    fn signal(number: i32, handler: usize) -> usize;
}

/// The one that came, or 0.
static ASKED: AtomicI32 = AtomicI32::new(0);

extern "C" fn ask(number: i32) {
    ASKED.store(number, Ordering::SeqCst);
}

/// From here on a file that grows beyond a limit is a write that fails, and not
/// the program's end.
pub fn ignore_limits() {
    // SAFETY: to ignore a signal needs no handler.
    unsafe {
        signal(SIGXFSZ, IGNORE);
    }
}

/// While this lives, the signals only ask.
pub struct Asking {
    asked: &'static AtomicI32,
}

impl Asking {
    pub fn begin() -> Asking {
        for (number, _) in ASKING {
            // SAFETY: the handler only stores to an atomic. A signal that was
            // ignored, as by nohup, stays so.
            unsafe {
                if signal(number, ask as extern "C" fn(i32) as usize) == IGNORE {
                    signal(number, IGNORE);
                }
            }
        }
        Asking { asked: &ASKED }
    }

    /// The name of one that came.
    pub fn asked(&self) -> Option<&'static str> {
        let came = self.asked.load(Ordering::SeqCst);
        ASKING
            .iter()
            .find_map(|(number, name)| (*number == came).then_some(*name))
    }
}

impl Drop for Asking {
    fn drop(&mut self) {
        for (number, _) in ASKING {
            // SAFETY: the default needs no handler.
            unsafe {
                if signal(number, DEFAULT) == IGNORE {
                    signal(number, IGNORE);
                }
            }
        }
    }
}
