//! How far it is, on standard error where that is a terminal.

use std::io::{self, IsTerminal, Write};
use std::time::{Duration, Instant};

/// How often the line is written anew, at most.
const EVERY: Duration = Duration::from_millis(200);

/// A line that is written over and over.
pub struct Progress {
    shown: bool,
    width: usize,
    /// The time that was spent before, where it is known.
    before: Option<Duration>,
    begun: Instant,
    last: Option<Instant>,
}

impl Progress {
    pub fn new(quiet: bool) -> Progress {
        Progress::after(Some(Duration::ZERO), quiet)
    }

    /// Of what goes on, after so much time was spent on it, where that is known.
    pub fn after(before: Option<Duration>, quiet: bool) -> Progress {
        Progress {
            shown: !quiet && io::stderr().is_terminal(),
            width: 0,
            before,
            begun: Instant::now(),
            last: None,
        }
    }

    /// The time spent, as far as it is known.
    pub fn time(&self) -> Duration {
        self.before.unwrap_or_default() + self.begun.elapsed()
    }

    /// Whether that is all of it.
    pub fn is_whole(&self) -> bool {
        self.before.is_some()
    }

    /// Whether the line is to be written anew.
    pub fn due(&self) -> bool {
        self.shown && self.last.is_none_or(|last| last.elapsed() >= EVERY)
    }

    /// How far it is, and the time spent. A terminal of 40 columns has room
    /// for 29 characters of the first.
    pub fn show(&mut self, how_far: &str) {
        self.last = Some(Instant::now());
        self.write(&line(how_far, self.time()));
    }

    /// Takes the line away, so that another can be said in its place.
    pub fn clear(&mut self) {
        if self.width > 0 {
            self.write("");
            let _ = write!(io::stderr(), "\r");
        }
    }

    /// Writes over what stands there.
    fn write(&mut self, line: &str) {
        let width = self.width;
        let mut error = io::stderr().lock();
        let _ = write!(error, "\r{line:width$}");
        let _ = error.flush();
        self.width = line.chars().count();
    }
}

impl Drop for Progress {
    fn drop(&mut self) {
        self.clear();
    }
}

/// How far it is, and the time spent.
pub fn line(how_far: &str, spent: Duration) -> String {
    format!("{how_far}, {}", clock(spent))
}

/// The time that something took: from a minute on in hours, minutes and
/// seconds.
pub fn spent(time: Duration) -> String {
    if time.as_secs() >= 60 {
        return clock(time);
    }
    let tenths = time.as_millis() / 100;
    format!("{}.{} s", tenths / 10, tenths % 10)
}

/// A time in hours, minutes and seconds.
pub fn clock(time: Duration) -> String {
    let seconds = time.as_secs();
    let (hours, minutes) = (seconds / 3_600, seconds / 60 % 60);
    format!("{hours}:{minutes:02}:{:02}", seconds % 60)
}

/// A share, rounded down, so that it is 100 only when all is done.
pub fn percent(share: f64) -> String {
    format!("{:.4} %", (share * 1_000_000.0).floor() / 10_000.0)
}

#[cfg(test)]
mod tests {
    use super::{clock, percent};
    use std::time::Duration;

    #[test]
    fn a_time_is_rounded_down_to_seconds() {
        assert_eq!(clock(Duration::from_millis(999)), "0:00:00");
        assert_eq!(clock(Duration::from_secs(3_599)), "0:59:59");
        assert_eq!(clock(Duration::from_secs(360_061)), "100:01:01");
    }

    #[test]
    fn a_share_is_rounded_down() {
        assert_eq!(percent(0.0), "0.0000 %");
        assert_eq!(percent(0.5), "50.0000 %");
        assert_eq!(percent(0.999_999_9), "99.9999 %");
        assert_eq!(percent(1.0), "100.0000 %");
    }
}
