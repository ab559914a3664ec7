//! `search` and `resume`: a new search, with a job or without, and one that
//! goes on.

use crate::failure::{Answer, Failure};
use crate::job::{self, About, Job};
use crate::legs::Search;
use crate::out::Out;
use crate::progress::Progress;
use crate::quorum::Quorum;
use crate::refusals;
use crate::run::{run, Run, Stop};
use crate::say;
use crate::sequences::{self, Sequences};
use crate::signals::Asking;
use crate::sum::Words;
use crate::table::{self, Searched};
use crate::template::Template;
use library::limits;
use std::path::{Path, PathBuf};

/// A new search, as it was asked for.
pub struct Asked {
    pub template: Template,
    pub quorum: Quorum,
    pub file: PathBuf,
    pub out: Out,
    pub job: Option<PathBuf>,
    pub quiet: bool,
    /// Whether lower-case letters are taken as upper-case ones.
    pub upper: bool,
}

/// Runs a new search.
pub fn search(asked: Asked) -> Answer<()> {
    asked.out.spare(std::slice::from_ref(&asked.file))?;
    let sequences = sequences::read(&asked.file, asked.upper)?;
    let quorum = asked.quorum.of(sequences.count());
    let saved = begin(&sequences, &asked.template, quorum)?;
    let Some(folder) = &asked.job else {
        return straight(&sequences, &asked, quorum, saved);
    };
    asked.out.spare(&job::paths(folder))?;
    asked.out.check()?;
    let asking = Asking::begin();
    let out = &asked.out;
    let job = Job::create(folder, sequences, asked.template, quorum, saved, out)?;
    go_on(job, asking, out, asked.quiet)
}

/// Goes on with a job. One that has ended is only read.
pub fn resume(folder: &Path, out: &Out, quiet: bool) -> Answer<()> {
    out.spare(&job::paths(folder))?;
    out.check()?;
    let about = About::read(folder)?;
    if about.ended() {
        return write_out(&about, out);
    }
    let asking = Asking::begin();
    go_on(Job::open(about)?, asking, out, quiet)
}

/// A new search, saved.
fn begin(sequences: &Sequences, template: &Template, quorum: u64) -> Answer<Vec<u8>> {
    let mut saved = vec![0; limits::SAVED_MOST];
    let size = library::begin(
        &sequences.letters,
        &sequences.lengths,
        template.lent(),
        quorum,
        &mut saved,
    )
    .map_err(|refusal| refusals::of_search(refusal, sequences, template, quorum))?;
    saved.truncate(size);
    Ok(saved)
}

/// A search without a job: the rows go out as they come.
fn straight(sequences: &Sequences, asked: &Asked, quorum: u64, saved: Vec<u8>) -> Answer<()> {
    let template = &asked.template;
    let mut out = asked.out.open()?;
    out.write(table::HEADER.as_bytes())?;
    let search = Search::new(sequences, template, saved, 0, 0)?;
    let searched = Searched::of(sequences, template, quorum);
    // Where rows come to the same terminal, they are what shows how far it is.
    let progress = Progress::new(asked.quiet || asked.out.is_terminal());
    let mut sum = Words::none();
    sum.and(table::HEADER.as_bytes());
    let mut run = Run::new(search, searched, sum, asked.quiet, progress);
    loop {
        run.call(sequences, template, &mut Stop::default())?;
        if run.due() {
            out.write(&run.lines)?;
            run.was_handed_on();
        }
        if run.ended {
            out.close()?;
            run.close();
            return Ok(());
        }
    }
}

/// Goes on with a job until it has ended, and writes out its table; or until a
/// signal asks to stop. Where its folder was moved meanwhile, that is told.
fn go_on(mut job: Job, asking: Asking, out: &Out, quiet: bool) -> Answer<()> {
    let ran = if job.about.ended() {
        Ok(())
    } else {
        run(&mut job, &asking, out, quiet)
    };
    // All is saved: from here on a signal may end the program at once.
    drop(asking);
    let moved = job.about.moved();
    match (ran, moved) {
        (Ok(()), Some(words)) => say::say(&format!("tulfasheq: {words}")),
        (Err(_), Some(words)) if job.about.is_removed() => return Err(Failure::broken(words)),
        (Err(failure), Some(words)) => return Err(failure.and(words)),
        (ran, None) => ran?,
    }
    if !out.shows_whole() {
        // Before anything is written out that would look whole.
        job.about.check_table()?;
    }
    write_out(&job.about, out)
}

/// Writes out the whole table of a job that has ended. Where it does not show
/// before it is whole, one that is damaged never does.
fn write_out(about: &About, out: &Out) -> Answer<()> {
    let written = out.open().and_then(|mut out| {
        about.hand_on(|piece| out.write(piece))?;
        out.close()
    });
    written.map_err(|failure| match failure.status {
        Failure::BROKEN | Failure::BUSY => failure.and(format!(
            "The search has ended, and its table is kept: {} writes it out again.",
            how(about, out)
        )),
        _ => failure,
    })
}

/// How a job is gone on with, as a shell reads it. The path of a folder that
/// was moved may be another job's by now.
pub fn how(about: &About, out: &Out) -> String {
    match about.place() {
        Some(folder) => say::again(&folder, out),
        None => format!("{} resume with the folder's new place", say::called()),
    }
}
