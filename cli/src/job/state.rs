//! The state of a job: the saved search, and what the other files of the
//! folder held when it was saved. Lines of text, so that an operator can read
//! it, and last a sum of those lines.

use crate::sum::{Sum, Words};
use std::fmt::Write;
use std::str::{from_utf8, FromStr};

/// What the first line is before its number, which changes with the layout, so
/// that no program reads a state by another layout than its own.
const PROGRAM: &str = "tulfasheq job ";

/// A time that is not known.
pub const UNKNOWN: &str = "unknown";

/// How a state is laid out, and by what it sums.
#[derive(Clone, Copy, Debug, PartialEq, Eq)]
pub enum Layout {
    /// That of the first jobs, which is only read: sums of bytes, and no time.
    One,
    /// Sums of words.
    Two,
}

impl Layout {
    /// The sum of bytes.
    pub fn sum(self, bytes: &[u8]) -> Sum {
        match self {
            Layout::One => Sum::of(bytes),
            Layout::Two => Words::of(bytes),
        }
    }
}

/// A state.
#[derive(Clone, Debug, PartialEq, Eq)]
pub struct State {
    pub layout: Layout,
    /// The candidates examined so far.
    pub steps: u64,
    /// The rows listed so far.
    pub rows: u64,
    /// The bytes of the table that hold them, its header and, of a search that
    /// has ended, its last line too.
    pub bytes: u64,
    /// The sum of those bytes.
    pub table: Sum,
    /// The sum of the sequences' file.
    pub sequences: Sum,
    /// The milliseconds spent so far; not known of a job that was begun with
    /// layout 1.
    pub time: Option<u64>,
    /// The saved search.
    pub saved: Vec<u8>,
}

/// What is wrong with a state.
#[derive(Debug, PartialEq, Eq)]
pub struct Bad {
    pub why: String,
    /// The bytes of the saved search, where they can be read all the same.
    pub saved: Option<Vec<u8>>,
}

impl State {
    /// The state as text.
    pub fn text(&self) -> String {
        let mut saved = String::new();
        for byte in &self.saved {
            // To write to memory does not fail.
            let _ = write!(saved, "{byte:02x}");
        }
        let (number, time) = match self.layout {
            Layout::One => (1, String::new()),
            Layout::Two => match self.time {
                Some(time) => (2, format!("time {time}\n")),
                None => (2, format!("time {UNKNOWN}\n")),
            },
        };
        let lines = format!(
            "{PROGRAM}{number}\nsteps {}\nrows {}\nbytes {}\ntable {}\nsequences {}\n{time}saved {saved}\n",
            self.steps, self.rows, self.bytes, self.table, self.sequences
        );
        format!("{lines}sum {}\n", self.layout.sum(lines.as_bytes()))
    }

    /// Reads a state, or says what is wrong with it. Only what `text` writes
    /// is read.
    pub fn read(bytes: &[u8]) -> Result<State, Bad> {
        let bad = |why: &str, saved| {
            let why = why.to_string();
            Err(Bad { why, saved })
        };
        let Ok(text) = from_utf8(bytes) else {
            return bad("it is no text", None);
        };
        let first = text.lines().next().unwrap_or("");
        let layout = match first.strip_prefix(PROGRAM) {
            Some("1") => Layout::One,
            Some("2") => Layout::Two,
            Some(layout) => {
                let why = format!(
                    "it has layout {layout:?}, and this program reads layouts \"1\" and \"2\""
                );
                return bad(&why, None);
            }
            None => return bad("it is no state of a job", None),
        };
        let Some(state) = State::lines(layout, text) else {
            return bad("its lines are not those of a state", None);
        };
        if state.text() != text {
            let why = "its sum is not that of its lines: it was damaged";
            return bad(why, Some(state.saved));
        }
        Ok(state)
    }

    /// The values of the lines.
    fn lines(layout: Layout, text: &str) -> Option<State> {
        let mut lines = text.lines().skip(1);
        let mut value = |name: &str| lines.next()?.strip_prefix(name)?.strip_prefix(' ');
        Some(State {
            layout,
            steps: number(value("steps")?)?,
            rows: number(value("rows")?)?,
            bytes: number(value("bytes")?)?,
            table: sum(value("table")?)?,
            sequences: sum(value("sequences")?)?,
            time: match layout {
                Layout::One => None,
                Layout::Two => match value("time")? {
                    UNKNOWN => None,
                    time => Some(number(time)?),
                },
            },
            saved: hex(value("saved")?)?,
        })
    }
}

fn number(text: &str) -> Option<u64> {
    u64::from_str(text).ok()
}

fn sum(text: &str) -> Option<Sum> {
    u64::from_str_radix(text, 16).ok().map(Sum)
}

fn hex(text: &str) -> Option<Vec<u8>> {
    if !text.len().is_multiple_of(2) || !text.is_ascii() {
        return None;
    }
    (0..text.len() / 2)
        .map(|i| u8::from_str_radix(&text[2 * i..2 * i + 2], 16).ok())
        .collect()
}

#[cfg(test)]
mod tests {
    use super::{Layout, State};
    use crate::sum::Sum;

    /// One of each layout, and one of the second with no time.
    fn states() -> [State; 3] {
        let kinds = [
            (Layout::One, None),
            (Layout::Two, Some(1_234)),
            (Layout::Two, None),
        ];
        kinds.map(|(layout, time)| State {
            layout,
            steps: 20,
            rows: 3,
            bytes: 77,
            table: layout.sum(b"table"),
            sequences: layout.sum(b">a\nACGT\n"),
            time,
            saved: (0..64).collect(),
        })
    }

    #[test]
    fn a_state_is_read_as_it_was_written() {
        for state in states() {
            assert_eq!(State::read(state.text().as_bytes()), Ok(state));
        }
    }

    #[test]
    fn layout_1_is_that_of_earlier_versions() {
        let [mut state, ..] = states();
        state.saved.truncate(2);
        state.table = Sum(1);
        state.sequences = Sum(0xab);
        assert_eq!(
            state.text(),
            "tulfasheq job 1\nsteps 20\nrows 3\nbytes 77\ntable 0000000000000001\nsequences 00000000000000ab\nsaved 0001\nsum 2b203b8c3b76b50a\n"
        );
    }

    #[test]
    fn a_state_cut_short_or_made_longer_is_refused() {
        for text in states().map(|state| state.text()) {
            for end in 0..text.len() {
                assert!(State::read(&text.as_bytes()[..end]).is_err(), "{end}");
            }
            for more in ["\n", " ", "0", "sum 0"] {
                assert!(State::read(format!("{text}{more}").as_bytes()).is_err());
            }
        }
    }

    #[test]
    fn a_state_with_any_bit_changed_is_refused() {
        for text in states().map(|state| state.text().into_bytes()) {
            for at in 0..text.len() {
                for bit in 0..8 {
                    let mut changed = text.clone();
                    changed[at] ^= 1 << bit;
                    assert!(State::read(&changed).is_err(), "byte {at}, bit {bit}");
                }
            }
        }
    }

    #[test]
    fn another_layout_is_named() {
        let why = State::read(b"tulfasheq job 3\n").unwrap_err().why;
        assert!(why.contains("layout \"3\""), "{why}");
        // Nor is a state read by the other one.
        let [one, two, _] = states().map(|state| state.text());
        for (text, from, to) in [(one, "job 1\n", "job 2\n"), (two, "job 2\n", "job 1\n")] {
            assert!(State::read(text.replacen(from, to, 1).as_bytes()).is_err());
        }
    }
}
