//! How much a call of the library is asked for: what takes some milliseconds
//! at the speed of the calls before, and never more than what takes a tenth of
//! a second if all that comes were the dearest.

use crate::dearest::Dearest;
use crate::sequences::Sequences;
use crate::template::Template;
use std::time::Duration;

/// How long a call is meant to take, in seconds, if its start takes little.
const CALL: f64 = 0.010;

/// A call makes its tables and the rows along its place anew: in most searches
/// that takes 0.05 to 0.1 ms, by the letters of the set and of the place, and up
/// to 0.5 ms where many sequences have wide gaps. It is to be no more than one
/// part in so many of what a call takes.
const PARTS: f64 = 100.0;

/// Every so many calls one is asked for no step, to see what a start takes.
const LOOK: u64 = 32;

/// What a call may take, in nanoseconds, if all of its steps and rows were the
/// dearest.
const MOST: f64 = 0.1e9;

/// What is left, after a call, of what a dear step took: so calls grow to twice
/// their steps, and no faster, while a stretch is cheap that comes after a dear
/// one.
const LEFT: f64 = 0.5;

/// The steps of a first call, before anything is known of their speed: few, since
/// a stop waits for it, however long it takes.
const FIRST: u64 = 64;

/// The least rows that there is room for, where none is expected.
const FEW: u64 = 16;

/// The rows that there is room for.
pub const ROOM: u64 = 1 << 17;

/// What a call is asked for.
#[derive(Clone, Copy, Debug, PartialEq, Eq)]
pub struct Ask {
    /// The most candidates.
    pub steps: u64,
    /// The most rows.
    pub rows: u64,
}

/// The speed that calls are to have.
pub struct Pace {
    /// By the lengths of the sequences, and once that is too little, by their
    /// letters, which takes some time to count.
    dearest: Dearest,
    counted: bool,
    calls: u64,
    /// The steps that the speed of the calls before allows.
    wanted: u64,
    /// What a start takes, in seconds, as it was last seen.
    start: f64,
    /// What a step of the call before took, and one of the dear calls before.
    cost: f64,
    dear: f64,
    /// The rows of the call before for each of its steps.
    share: f64,
}

impl Pace {
    pub fn new(sequences: &Sequences, template: &Template) -> Pace {
        Pace {
            dearest: Dearest::of_lengths(sequences, template),
            counted: false,
            calls: 0,
            wanted: FIRST,
            start: 0.0,
            cost: 0.0,
            dear: 0.0,
            share: 0.0,
        }
    }

    /// What the next call is asked for.
    pub fn ask(&mut self, sequences: &Sequences, template: &Template) -> Ask {
        if self.looks() {
            return Ask { steps: 0, rows: 1 };
        }
        let asked = self.most();
        if self.counted || asked.steps == self.wanted {
            return asked;
        }
        self.dearest = Dearest::of_letters(sequences, template);
        self.counted = true;
        self.most()
    }

    /// As many steps as are wanted, if they take no longer than a call may.
    fn most(&self) -> Ask {
        let (mut fits, mut above) = (1, self.wanted + 1);
        while above - fits > 1 {
            let steps = fits + (above - fits) / 2;
            if self.dearest.call(steps, self.rows(steps)) <= MOST {
                fits = steps;
            } else {
                above = steps;
            }
        }
        Ask {
            steps: fits,
            rows: self.rows(fits),
        }
    }

    /// Room for twice the rows that are expected in so many steps.
    fn rows(&self, steps: u64) -> u64 {
        ((2.0 * self.share * steps as f64) as u64).clamp(FEW, ROOM)
    }

    /// Whether the next call is to see what a start takes.
    fn looks(&self) -> bool {
        self.calls % LOOK == 1
    }

    /// Heeds what a call did, and how long it took. The next one may have four
    /// times as many steps, since the speed of what comes is not known.
    pub fn heed(&mut self, asked: Ask, steps: u64, rows: u64, took: Duration) {
        let (looked, took) = (self.looks(), took.as_secs_f64().max(1e-9));
        self.calls += 1;
        if looked {
            self.start = took;
            return;
        }
        // Of a short call the start is most, and may have been longer.
        let worked = (took - self.start).max(took / 10.0);
        self.cost = worked / steps.max(1) as f64;
        self.dear = self.cost.max(LEFT * self.dear);
        let call = CALL.max(PARTS * self.start);
        self.wanted = ((call / self.dear).round() as u64).clamp(1, asked.steps.saturating_mul(4));
        self.share = rows as f64 / steps.max(1) as f64;
    }
}

#[cfg(test)]
mod tests {
    use super::{Ask, Pace, CALL, FIRST, LOOK, MOST, PARTS, ROOM};
    use crate::sequences::Sequences;
    use crate::template::Template;
    use std::time::Duration;

    /// A search's set, its template and its pace.
    struct Case {
        sequences: Sequences,
        template: Template,
        pace: Pace,
    }

    impl Case {
        fn new(file: String, template: &str) -> Case {
            let sequences =
                Sequences::new("a.fa".to_string(), file.into_bytes()).expect("sequences");
            let template = Template::read(template, None).expect("one");
            let pace = Pace::new(&sequences, &template);
            Case {
                sequences,
                template,
                pace,
            }
        }

        fn ask(&mut self) -> Ask {
            self.pace.ask(&self.sequences, &self.template)
        }

        /// Calls that take so many seconds to start and for each step, with so
        /// many rows for a step, until their length has settled: the last that
        /// was no look at the start.
        fn settled(&mut self, start: f64, step: f64, share: f64) -> Ask {
            let mut last = self.ask();
            for _ in 0..4 * LOOK {
                let asked = self.ask();
                let full = (asked.rows as f64 / share).min(asked.steps as f64);
                let (steps, rows) = (full as u64, (full * share) as u64);
                let took = Duration::from_secs_f64(start + step * full);
                if !self.pace.looks() {
                    last = asked;
                }
                self.pace.heed(asked, steps, rows, took);
            }
            last
        }
    }

    /// Over a short set, of which no call is too long.
    fn short() -> Case {
        Case::new(">a\nACGT\n".to_string(), "NN[0,3]N")
    }

    /// Over as many letters as there can be, in sequences of so many.
    fn full(letters: usize) -> Case {
        let template = "NN[0,40]NN[0,40]NN[0,40]NN[0,40]NN[200,255]NNN";
        let record = format!(">a\n{}\n", "ACGT".repeat(letters / 4));
        Case::new(record.repeat(65_536 / letters), template)
    }

    #[test]
    fn a_call_takes_some_ten_milliseconds() {
        assert_eq!(short().ask().steps, FIRST);
        for step in [1e-7, 1e-6, 1e-4] {
            let steps = short().settled(1e-5, step, 0.0).steps as f64;
            let call = steps * step;
            assert!(call > 0.98 * CALL && call < 1.2 * CALL, "{step}: {call}");
        }
        // A step that takes longer than a call should is a call of its own.
        assert_eq!(short().settled(1e-5, 1.0, 0.0).steps, 1);
    }

    #[test]
    fn a_start_is_little_of_a_call() {
        for start in [2e-4, 2e-3] {
            let steps = short().settled(start, 1e-6, 0.0).steps as f64;
            let part = start / (steps * 1e-6);
            assert!(part < 1.05 / PARTS, "{start}: {part}");
        }
    }

    #[test]
    fn all_of_a_call_could_be_the_dearest() {
        for letters in [64, 128, 1_024, 65_536] {
            for share in [0.0, 0.001, 0.7] {
                let mut case = full(letters);
                // So cheap that the clock would allow far more.
                let asked = case.settled(1e-4, 1e-9, share);
                let takes = case.pace.dearest.call(asked.steps, asked.rows);
                assert!(
                    takes <= MOST && takes > 0.9 * MOST,
                    "{letters}, {share}: {takes}"
                );
                assert!(case.pace.counted);
            }
        }
    }

    #[test]
    fn calls_grow_to_twice_their_steps_after_a_dear_one() {
        let mut case = short();
        case.pace.start = 1e-5;
        case.pace.calls = 2;
        let ask = |steps| Ask { steps, rows: ROOM };
        let mut heed = |asked: u64, took| {
            case.pace.heed(ask(asked), asked, 0, took);
            case.ask().steps
        };
        assert_eq!(heed(8_000, Duration::from_micros(10_010)), 8_000);
        for steps in [16_000, 32_000, 64_000] {
            assert_eq!(heed(100_000, Duration::from_micros(20)), steps);
        }
        // Nor to more than four times, whatever the clock says.
        assert_eq!(heed(10, Duration::ZERO), 40);
    }
}
