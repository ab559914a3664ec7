//! A search that runs: call by call of the library, the rows gathered, and
//! handed on every quarter of a second.

mod told;

use crate::failure::{Answer, Failure};
use crate::job::Job;
use crate::legs::{self, Search};
use crate::out::Out;
use crate::progress::Progress;
use crate::refusals;
use crate::say;
use crate::search::how;
use crate::sequences::Sequences;
use crate::signals::Asking;
use crate::sum::Words;
use crate::table::{self, End, Searched};
use crate::template::Template;
use std::time::{Duration, Instant};
use told::{closing, how_far, opening};

/// How often rows are handed on: written out, or saved.
const EVERY: Duration = Duration::from_millis(250);

/// The calls of a run after each of which they are: what is there is soon
/// there, and a job that is killed soon after its start has got on.
const SOON: u64 = 3;

/// Bytes of lines that are handed on at once.
const LARGE: usize = 16 * 1024 * 1024;

/// How long a stop waits for a call that is under way.
const PATIENCE: Duration = Duration::from_millis(150);

/// A search on its way, and the lines that are not handed on yet.
pub struct Run {
    pub search: Search,
    searched: Searched,
    pub lines: Vec<u8>,
    /// The sum of the table so far, these lines too.
    sum: Words,
    pub ended: bool,
    /// Calls that ended.
    calls: u64,
    handed_on: Instant,
    progress: Progress,
    quiet: bool,
}

impl Run {
    /// A search that begins or goes on, and the sum of its table so far. What
    /// is searched is said first.
    pub fn new(
        search: Search,
        searched: Searched,
        sum: Words,
        quiet: bool,
        progress: Progress,
    ) -> Run {
        if !quiet {
            say::say(&opening(&searched, search.steps, search.rows));
        }
        Run {
            search,
            searched,
            lines: Vec::new(),
            sum,
            ended: false,
            calls: 0,
            handed_on: Instant::now(),
            progress,
            quiet,
        }
    }

    /// Makes a call, and gathers its lines, the last one too where the search
    /// has ended.
    pub fn call(
        &mut self,
        sequences: &Sequences,
        template: &Template,
        stop: &mut Stop,
    ) -> Answer<()> {
        // A first one is waited for, so that a job gets on however often it is
        // stopped.
        let first = self.calls == 0;
        let waits = || stop.waits(&mut self.progress) || first;
        let Some(rows) = self.search.call(sequences, template, waits)? else {
            return Ok(());
        };
        let before = self.lines.len();
        table::rows(
            template,
            rows.motifs,
            rows.supports,
            rows.weights,
            &mut self.lines,
        );
        self.sum.and(&self.lines[before..]);
        self.calls += 1;
        self.ended = rows.ended;
        if self.ended {
            let end = End {
                steps: self.search.steps,
                rows: self.search.rows,
                searched: Some(self.searched.clone()),
                table: Some(self.sum.sum()),
            };
            let last = format!("{end}\n");
            self.sum.and(last.as_bytes());
            self.lines.extend_from_slice(last.as_bytes());
        }
        if self.progress.due() && !stop.asked(&mut self.progress) {
            let (letters, number) = legs::restored(sequences, &self.search.saved)
                .map_err(|refusal| refusals::of_save(refusal, "the search"))?
                .next;
            let share = template.share(letters, number);
            self.progress.show(&how_far(share, self.search.rows));
        }
        Ok(())
    }

    /// Whether the lines are to be handed on.
    pub fn due(&self) -> bool {
        self.ended
            || self.calls <= SOON
            || self.lines.len() >= LARGE
            || self.handed_on.elapsed() >= EVERY
    }

    /// The lines were handed on.
    pub fn was_handed_on(&mut self) {
        self.lines.clear();
        self.handed_on = Instant::now();
    }

    /// Says what there was of it, at its end.
    pub fn close(self) {
        let (rows, steps) = (self.search.rows, self.search.steps);
        let (quiet, time) = (self.quiet, self.progress.time());
        let whole = self.progress.is_whole();
        // The line that tells how far it is goes.
        drop(self);
        if !quiet {
            say::say(&closing(rows, steps, time, whole));
        }
    }
}

/// A stop that a signal asks for.
#[derive(Default)]
pub struct Stop<'a> {
    asking: Option<&'a Asking>,
    heard: Option<Instant>,
}

impl Stop<'_> {
    /// Whether one was asked for: which is said at once, and once.
    fn asked(&mut self, progress: &mut Progress) -> bool {
        let name = self.asking.and_then(Asking::asked);
        if let (Some(name), None) = (name, self.heard) {
            progress.clear();
            say::say(&format!("tulfasheq: {name}: stopping, and saving"));
            self.heard = Some(Instant::now());
        }
        self.heard.is_some()
    }

    /// Whether a call that is under way is waited for.
    fn waits(&mut self, progress: &mut Progress) -> bool {
        !self.asked(progress) || self.heard.is_some_and(|heard| heard.elapsed() < PATIENCE)
    }
}

/// Runs a job's search until it has ended, or until a signal has come.
pub fn run(job: &mut Job, asking: &Asking, out: &Out, quiet: bool) -> Answer<()> {
    let about = &job.about;
    let search = Search::new(
        &about.sequences,
        &about.template,
        about.saved().to_vec(),
        about.steps(),
        about.rows(),
    )?;
    let searched = Searched::of(&about.sequences, &about.template, about.quorum);
    let progress = Progress::after(about.time(), quiet);
    let mut run = Run::new(search, searched, about.sum().clone(), quiet, progress);
    let mut stop = Stop {
        asking: Some(asking),
        heard: None,
    };
    loop {
        run.call(&job.about.sequences, &job.about.template, &mut stop)?;
        let stopped = stop.asked(&mut run.progress);
        if stopped || run.due() {
            save(job, &run, out)?;
            run.was_handed_on();
        }
        if run.ended {
            run.close();
            return Ok(());
        }
        if stopped {
            return Err(Failure::stopped(format!(
                "stopped, and saved: {} goes on with it",
                how(&job.about, out)
            )));
        }
    }
}

/// Saves a job as far as its search has come.
fn save(job: &mut Job, run: &Run, out: &Out) -> Answer<()> {
    job.keep(&run.lines, &run.sum, &run.search, run.progress.time())
        .map_err(|failure| {
            if job.lost_table() {
                return failure;
            }
            failure.and(format!(
                "The search is kept as it was last saved: {} goes on with it.",
                how(&job.about, out)
            ))
        })
}
