//! Times of several programs at the same work, taken in turn, so that what
//! else the machine does falls on all of them; and tables to print them in.
//!
//! A time is that of the processor, spent by this thread: it does not count
//! while other programs have its core.

use std::hint::black_box;
use std::time::Duration;

/// C's `struct timespec` on 64-bit Linux.
#[repr(C)]
struct Timespec {
    seconds: i64,
    nanoseconds: i64,
}

extern "C" {
    fn clock_gettime(clock: i32, to: *mut Timespec) -> i32;
    fn mallopt(what: i32, value: i32) -> i32;
}

/// glibc's M_TRIM_THRESHOLD and M_TOP_PAD: from how much on free memory is given
/// back to the system, and how much more than is asked for it is asked for; and
/// M_MMAP_THRESHOLD, from how much on memory is asked of it piece by piece.
const KEPT: [(i32, i32); 3] = [(-1, 1 << 30), (-2, 8 << 20), (-3, 1 << 25)];

/// Has memory kept that a program gives back. The library's tables are on a
/// stack that is there; a Rust program's would be handed out by the system page
/// by page at each call, and most of what a short leg takes would be that.
pub fn keep_memory() {
    for (what, value) in KEPT {
        // SAFETY: it sets a number of the allocator's, and no other thread runs.
        let set = unsafe { mallopt(what, value) };
        assert_eq!(set, 1, "the allocator did not take {what}");
    }
}

/// Linux's CLOCK_THREAD_CPUTIME_ID.
const OF_THIS_THREAD: i32 = 3;

/// The processor's time that this thread has spent.
fn spent() -> Duration {
    let mut spent = Timespec {
        seconds: 0,
        nanoseconds: 0,
    };
    // SAFETY: it writes to one timespec, which is this one.
    let status = unsafe { clock_gettime(OF_THIS_THREAD, &mut spent) };
    assert_eq!(status, 0, "no clock of this thread");
    Duration::new(spent.seconds as u64, spent.nanoseconds as u32)
}

/// The times of one program.
#[derive(Clone, Debug, Default)]
pub struct Times(Vec<Duration>);

impl Times {
    /// The least, in seconds: what the work costs where nothing is in its way.
    pub fn least(&self) -> f64 {
        self.0.iter().min().map_or(0.0, Duration::as_secs_f64)
    }

    /// The middle one, in seconds.
    pub fn middle(&self) -> f64 {
        middle(self.0.iter().map(Duration::as_secs_f64).collect())
    }

    /// What this work has on top of another, in seconds: the middle of the
    /// differences, round by round.
    pub fn on_top_of(&self, other: &Times) -> f64 {
        let pairs = self.0.iter().zip(&other.0);
        middle(
            pairs
                .map(|(more, less)| more.as_secs_f64() - less.as_secs_f64())
                .collect(),
        )
    }
}

fn middle(mut list: Vec<f64>) -> f64 {
    list.sort_by(f64::total_cmp);
    list.get(list.len() / 2).copied().unwrap_or(0.0)
}

pub fn ratio(one: f64, other: f64) -> String {
    format!("{:.2}", one / other)
}

/// The ratio of the least times, and of the middle ones in brackets.
pub fn ratios(one: &Times, other: &Times) -> String {
    let least = ratio(one.least(), other.least());
    let middle = ratio(one.middle(), other.middle());
    format!("{least} ({middle})")
}

/// A row of a table, and a title with the line under it.
pub fn row<S: AsRef<str>>(cells: &[S]) {
    let cells: Vec<&str> = cells.iter().map(AsRef::as_ref).collect();
    println!("| {} |", cells.join(" | "));
}

pub fn title(names: &[&str]) {
    row(names);
    println!("|{}", "---|".repeat(names.len()));
}

/// What is timed: it answers something, so that none of it can be left out.
pub type Work<'a> = Box<dyn FnMut() -> u64 + 'a>;

/// Each work once to warm up, then all in turn, so many times.
pub fn in_turn(rounds: usize, works: &mut [Work]) -> Vec<Times> {
    let mut times = vec![Times::default(); works.len()];
    for work in works.iter_mut() {
        black_box(work());
    }
    for _ in 0..rounds {
        for (work, times) in works.iter_mut().zip(&mut times) {
            let begun = spent();
            black_box(work());
            times.0.push(spent() - begun);
        }
    }
    times
}
