//! `places`: where motifs occur.

mod bed;
mod format;
mod gff;
mod list;
mod narrow;
mod occurrences;
mod shape;
mod tsv;
mod write;

use crate::counted::of;
use crate::failure::{Answer, Failure};
use crate::job::{self, About};
use crate::out::Out;
use crate::refusals;
use crate::say::say;
use crate::sequences::{self, Sequences};
use crate::table::Searched;
use crate::template::Template;
pub use format::Format;
use library::limits;
use occurrences::Occurrences;
pub use shape::template as template_of;
use std::io::BufReader;
use std::path::{Path, PathBuf};

/// Whose occurrences.
pub enum What {
    Motif {
        template: Template,
        motif: String,
        file: PathBuf,
    },
    List {
        template: Template,
        list: PathBuf,
        file: PathBuf,
    },
    Job(PathBuf),
}

/// Which rows of the list are written, how and where to.
pub struct How {
    pub format: Format,
    pub from: u64,
    pub rows: Option<u64>,
    pub out: Out,
    /// Whether no progress is shown.
    pub quiet: bool,
    /// Whether lower-case letters of the sequences are taken as upper-case.
    pub upper: bool,
}

/// The occurrences that are asked for.
pub struct Asked {
    pub what: What,
    pub how: How,
}

/// Lists occurrences. All that is read is checked before anything is written.
pub fn places(asked: Asked) -> Answer<()> {
    let how = asked.how;
    match asked.what {
        What::Motif {
            template,
            motif,
            file,
        } => of_motif(&template, &motif, &file, &how),
        What::List {
            template,
            list,
            file,
        } => of_list(&template, &list, &file, &how),
        What::Job(folder) => of_job(&folder, &how),
    }
}

/// Of one motif.
fn of_motif(template: &Template, motif: &str, file: &Path, how: &How) -> Answer<()> {
    how.check(&[file.to_path_buf()])?;
    template.number(motif).map_err(Failure::usage)?;
    let sequences = sequences::read(file, how.upper)?;
    takes(&sequences, template)?;
    let several = shape::several(template, motif);
    let all = Occurrences {
        sequences: &sequences,
        template,
        motifs: vec![list::motif(template, motif, &several, || {
            "tulfasheq".to_string()
        })?],
        counts: None,
    };
    how.write(&all, "")
}

/// Of every motif of a table that a search wrote.
fn of_list(template: &Template, list: &Path, file: &Path, how: &How) -> Answer<()> {
    let input = Path::new("-");
    if list == input && file == input {
        return Err(Failure::usage(
            "standard input cannot be both the sequences and the list",
        ));
    }
    how.check(&[list.to_path_buf(), file.to_path_buf()])?;
    let sequences = sequences::read(file, how.upper)?;
    takes(&sequences, template)?;
    let (table, template) = if template.mixed || template.letters() > limits::MIXED_MOTIF {
        let table = list::read_file(list, template, how.from > 0)?;
        (table, template.clone())
    } else {
        let lengths: Vec<u64> = template.components.iter().map(|c| c.length).collect();
        let all = shape::needed(template, &lengths)?;
        let mut table = list::read_file(list, &all, how.from > 0)?;
        let needed = table.narrowed(template)?;
        (table, needed)
    };
    let searched = table.end.as_ref().and_then(|end| end.searched.as_ref());
    let other = searched.map(|searched| other(searched, &sequences, &template));
    let unfinished = if table.end.is_none() {
        format!(
            "{}: it is not whole, for it does not end with the line that search writes last: {} of it are taken",
            list.display(),
            of(table.motifs.len() as u64, "row")
        )
    } else {
        String::new()
    };
    let changed = table.changed.then(|| {
        "it was changed since it was written: its sum does not fit, by its last line".to_string()
    });
    for note in other.iter().flatten().chain(&changed) {
        say(&format!("tulfasheq: {}: note: {note}", list.display()));
    }
    let all = Occurrences {
        sequences: &sequences,
        template: &template,
        motifs: table.motifs,
        // What another search counted is not what occurs here, nor what stands
        // in a table that was changed.
        counts: (table.counts).filter(|_| other == Some(None) && !table.changed),
    };
    how.write(&all, &unfinished)
}

/// What a table's last line tells of another search than one over these
/// sequences by this template, or nothing.
fn other(searched: &Searched, sequences: &Sequences, template: &Template) -> Option<String> {
    if searched.template != template.text {
        let its = &searched.template;
        return Some(format!("its template is {its}, by its last line"));
    }
    (searched.sum != sequences.sum()).then(|| {
        let called = &sequences.called;
        format!("it is of a search over other sequences than those of {called}, by its last line")
    })
}

/// Of every motif that a job has listed.
fn of_job(folder: &Path, how: &How) -> Answer<()> {
    how.check(&job::paths(folder))?;
    let about = About::read(folder)?;
    takes(&about.sequences, &about.template)?;
    let called = folder.join(job::ROWS).display().to_string();
    let mut lines = BufReader::new(about.table()?);
    let table = list::read(&mut lines, &called, &about.template, how.from > 0)?;
    let unfinished = if about.ended() {
        String::new()
    } else {
        format!(
            "{}: the search has not ended: these are the places of the {} so far",
            folder.display(),
            of(table.motifs.len() as u64, "row")
        )
    };
    let all = Occurrences {
        sequences: &about.sequences,
        template: &about.template,
        motifs: table.motifs,
        counts: table.counts,
    };
    how.write(&all, &unfinished)
}

/// Refuses sequences and a template that the library refuses.
fn takes(sequences: &Sequences, template: &Template) -> Answer<()> {
    // A search refuses the same, and to begin one takes no time.
    let quorum = 1;
    library::begin(
        &sequences.letters,
        &sequences.lengths,
        template.lent(),
        quorum,
        &mut [0; limits::SAVED_MOST],
    )
    .map_err(|refusal| refusals::of_search(refusal, sequences, template, quorum))?;
    Ok(())
}
