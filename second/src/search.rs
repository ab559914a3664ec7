//! A search as a value, and the checks of it.

use crate::occurrence::is_frequent;
use crate::place::Place;
use crate::refusal::Refusal;
use crate::sequences::SequenceSet;
use crate::template::Template;

/// A search at its place. The sequences are lent again with each call.
#[derive(Clone, Debug, PartialEq, Eq)]
pub struct Search {
    /// The template.
    pub template: Template,
    /// The quorum.
    pub quorum: u64,
    /// The number of sequences it was begun with.
    pub sequences: u32,
    /// The number of letters in all it was begun with.
    pub letters: u32,
    /// The next candidate, or the ended place.
    pub place: Place,
}

/// Refusal 9: "The quorum is 1 to the number of sequences."
fn check_quorum(set: &SequenceSet, quorum: u64) -> Result<(), Refusal> {
    if (1..=u64::from(set.number_of_sequences())).contains(&quorum) {
        Ok(())
    } else {
        Err(Refusal::plain(Refusal::QUORUM))
    }
}

/// "New search: 1 to 9", with "24 allowance above the length, after 8". "A
/// search visits candidates so: first A".
pub fn begin(
    letters: &[u8],
    lengths: &[u32],
    template: &Template,
    quorum: u64,
) -> Result<Search, Refusal> {
    let set = SequenceSet::lent(letters, lengths)?;
    template.check()?;
    check_quorum(&set, quorum)?;
    Ok(Search {
        template: template.without_what_is_unused(),
        quorum,
        sequences: set.number_of_sequences(),
        letters: set.letters_in_all(),
        place: Place::FIRST,
    })
}

impl Search {
    /// "A leg or a save checks the search value it is given by restore's
    /// order without 10", and "a leg or save sees only the place rule" of the
    /// records: after 1 to 4 these are 5, 23, 6, 7, 8, 24, 12, 9, 13.
    pub(crate) fn check(&self, set: &SequenceSet) -> Result<(), Refusal> {
        self.template.check_number_of_components()?;
        self.check_place_rule()?;
        self.template.check_component_lengths()?;
        self.template.check_letters_in_all()?;
        self.template.check_gap_ranges()?;
        self.template.check_allowances()?;
        self.check_counts(set)?;
        check_quorum(set, self.quorum)?;
        self.check_candidate(set)
    }

    /// Refusal 23: "the place breaks its rule", with "its record": counted
    /// from 0, the place record comes after the size record and one record
    /// for each component.
    fn check_place_rule(&self) -> Result<(), Refusal> {
        if self.place.keeps_its_rule(&self.template) {
            Ok(())
        } else {
            let place_record = self.template.components.len() + 1;
            Err(Refusal::at(Refusal::PLACE_RULE, place_record as u64))
        }
    }

    /// Refusal 12: "sequence or letter count differs from the lent ones".
    fn check_counts(&self, set: &SequenceSet) -> Result<(), Refusal> {
        let lent = (set.number_of_sequences(), set.letters_in_all());
        if (self.sequences, self.letters) == lent {
            Ok(())
        } else {
            Err(Refusal::plain(Refusal::COUNTS_DIFFER))
        }
    }

    /// Refusal 13: "place is neither a candidate of this search nor the ended
    /// place". "A candidate is a prefix of 1 to K letters whose prefix one
    /// letter shorter is frequent." The place has kept its rule, so that its
    /// letters are allowed ones.
    fn check_candidate(&self, set: &SequenceSet) -> Result<(), Refusal> {
        let shorter = self.place.shorter(self.template.profile);
        if self.place == Place::ENDED || is_frequent(set, &self.template, self.quorum, &shorter) {
            Ok(())
        } else {
            Err(Refusal::plain(Refusal::NO_CANDIDATE))
        }
    }
}
