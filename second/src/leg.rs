//! Legs of a search.

use crate::occurrence::{count, Counts};
use crate::place::Place;
use crate::refusal::Refusal;
use crate::search::Search;
use crate::sequences::SequenceSet;

/// Why a leg stopped.
#[derive(Clone, Copy, Debug, PartialEq, Eq)]
pub enum Answer {
    /// "none left, answer ended"
    Ended,
    /// "budget used, answer spent"
    Spent,
    /// "the candidate is a frequent motif and the tables are full, answer
    /// full"
    Full,
    /// The leg was refused.
    Refused(Refusal),
}

/// "The leg answers its steps, its rows and the search at its new place."
#[derive(Clone, Debug, PartialEq, Eq)]
pub struct Leg {
    /// Why the leg stopped.
    pub answer: Answer,
    /// "One step is one candidate examined."
    pub steps: u64,
    /// The rows written.
    pub rows: usize,
    /// The search at its new place; of a refused leg the search as given.
    pub search: Search,
}

/// One candidate, examined.
pub(crate) struct Examined {
    pub counts: Counts,
    pub frequent: bool,
    pub motif: bool,
    pub next: Place,
}

/// "One step is one candidate examined." The search was checked and has not
/// ended.
pub(crate) fn examine(set: &SequenceSet, search: &Search) -> Examined {
    let letters_in_all = search.template.letters_in_all();
    let counts = count(set, &search.template, &search.place);
    let frequent = u64::from(counts.support) >= search.quorum;
    let motif = frequent && u64::from(search.place.letters) == letters_in_all;
    let next = search.place.after(frequent, &search.template);
    Examined {
        counts,
        frequent,
        motif,
        next,
    }
}

/// "A leg has a budget of steps and three tables: motif numbers, supports,
/// weighted supports." "All counts in a refusal are 0."
pub fn leg(
    letters: &[u8],
    lengths: &[u32],
    search: &Search,
    budget: u64,
    motifs: &mut [u64],
    supports: &mut [u32],
    weights: &mut [u64],
) -> Leg {
    let checked = SequenceSet::lent(letters, lengths).and_then(|set| {
        search.check(&set)?;
        Ok(set)
    });
    match checked {
        Ok(set) => run(&set, search, budget, motifs, supports, weights),
        Err(refusal) => Leg {
            answer: Answer::Refused(refusal),
            steps: 0,
            rows: 0,
            search: search.clone(),
        },
    }
}

/// "Before each candidate, in this order: none left, answer ended; budget
/// used, answer spent; the candidate is a frequent motif and the tables are
/// full, answer full, and this candidate is not counted. Otherwise it takes
/// the step and writes a row if the candidate is a frequent motif. Rows start
/// at row 0; the rest of each table stays."
fn run(
    set: &SequenceSet,
    search: &Search,
    budget: u64,
    motifs: &mut [u64],
    supports: &mut [u32],
    weights: &mut [u64],
) -> Leg {
    // "Its room is the shortest table."
    let room = motifs.len().min(supports.len()).min(weights.len());
    let mut search = search.clone();
    let mut steps = 0;
    let mut rows = 0;
    let answer = loop {
        if search.place == Place::ENDED {
            break Answer::Ended;
        }
        if steps == budget {
            break Answer::Spent;
        }
        let examined = examine(set, &search);
        if examined.motif && rows == room {
            break Answer::Full;
        }
        steps += 1;
        if examined.motif {
            motifs[rows] = search.place.number;
            supports[rows] = examined.counts.support;
            weights[rows] = examined.counts.weighted_support;
            rows += 1;
        }
        search.place = examined.next;
    };
    Leg {
        answer,
        steps,
        rows,
        search,
    }
}
