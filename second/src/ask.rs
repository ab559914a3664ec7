//! Questions beside the paper's calls, for comparisons. Each takes a prefix
//! of 1 to K letters, and refuses 1 to 8 and 24 as a recovery does, then 23 for
//! anything else, with place 0: there is no record that it could tell.

use crate::leg::examine;
use crate::occurrence::{count, Counts};
use crate::place::Place;
use crate::refusal::Refusal;
use crate::search::{begin, Search};
use crate::sequences::SequenceSet;
use crate::template::Template;

/// What is counted of the prefix.
fn counts(
    letters: &[u8],
    lengths: &[u32],
    template: &Template,
    prefix: &Place,
) -> Result<Counts, Refusal> {
    let set = SequenceSet::lent(letters, lengths)?;
    template.check()?;
    if prefix.letters == 0 || !prefix.keeps_its_rule(template) {
        return Err(Refusal::plain(Refusal::PLACE_RULE));
    }
    Ok(count(&set, template, prefix))
}

/// "The support is the number of marks", one for each sequence that holds the
/// prefix.
pub fn support(
    letters: &[u8],
    lengths: &[u32],
    template: &Template,
    prefix: &Place,
) -> Result<u32, Refusal> {
    counts(letters, lengths, template, prefix).map(|counts| counts.support)
}

/// "The row's weighted support becomes the length of the recovery list, summed
/// over sequences": the number of the prefix's occurrences.
pub fn weighted_support(
    letters: &[u8],
    lengths: &[u32],
    template: &Template,
    prefix: &Place,
) -> Result<u64, Refusal> {
    counts(letters, lengths, template, prefix).map(|counts| counts.weighted_support)
}

/// A candidate as the search found it.
#[derive(Clone, Debug, PartialEq, Eq)]
pub struct Candidate {
    /// The candidate.
    pub place: Place,
    /// Its support.
    pub support: u32,
    /// Its weighted support.
    pub weighted_support: u64,
    /// "Frequent means that support is at least the quorum."
    pub frequent: bool,
}

/// The candidates of a new search, one after another in its order.
#[derive(Clone, Debug)]
pub struct Candidates {
    set: SequenceSet,
    search: Search,
}

/// The candidates of a new search; refuses as a new search does.
pub fn candidates(
    letters: &[u8],
    lengths: &[u32],
    template: &Template,
    quorum: u64,
) -> Result<Candidates, Refusal> {
    let set = SequenceSet::lent(letters, lengths)?;
    let search = begin(letters, lengths, template, quorum)?;
    Ok(Candidates { set, search })
}

impl Iterator for Candidates {
    type Item = Candidate;

    /// "A search visits candidates so: first A; ... when nothing is left the
    /// search has ended."
    fn next(&mut self) -> Option<Candidate> {
        if self.search.place == Place::ENDED {
            return None;
        }
        let examined = examine(&self.set, &self.search);
        let candidate = Candidate {
            place: self.search.place.clone(),
            support: examined.counts.support,
            weighted_support: examined.counts.weighted_support,
            frequent: examined.frequent,
        };
        self.search.place = examined.next;
        Some(candidate)
    }
}
