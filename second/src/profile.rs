//! The two profiles: which letters a motif can have, and what they mean.

use crate::refusal::Refusal;
use crate::sequences::SequenceSet;
use crate::template::Template;

/// Which letters a motif can have. "Demands 2 and 3 hold of both profiles."
#[derive(Clone, Copy, Debug, Default, PartialEq, Eq)]
pub enum Profile {
    /// "Exact matching only."
    #[default]
    Exact,
    /// "A profile where a motif's letters run in the order A C G T R Y K M S
    /// W B D H V."
    Mixed,
}

impl Profile {
    /// "0 or 1 for the profile"
    pub fn number(self) -> u16 {
        match self {
            Profile::Exact => 0,
            Profile::Mixed => 1,
        }
    }

    /// A motif's letters in their order. A letter's place in it, from 0, is
    /// its digit in a number. "N isn't used in a motif."
    pub fn letters(self) -> &'static [u8] {
        match self {
            Profile::Exact => b"ACGT",
            Profile::Mixed => b"ACGTRYKMSWBDHV",
        }
    }

    /// "Its number reads them as base-4 digits"; "numbers are base 16 by place
    /// in that order".
    pub fn base(self) -> u64 {
        match self {
            Profile::Exact => 4,
            Profile::Mixed => 16,
        }
    }

    /// "At most 32 letters in all (K)"; "so K is at most 16".
    pub fn most_letters(self) -> u64 {
        match self {
            Profile::Exact => 32,
            Profile::Mixed => 16,
        }
    }
}

/// The profile that a number passed to a call means: "0 or 1 for the profile,
/// else 21", with 0 for the place, the record that would hold it. A save checks
/// in restore's order, where 21 comes after 1 to 5; so it does in a new search
/// and a recovery.
pub fn profile_of(
    letters: &[u8],
    lengths: &[u32],
    components: usize,
    number: u16,
) -> Result<Profile, Refusal> {
    for profile in [Profile::Exact, Profile::Mixed] {
        if profile.number() == number {
            return Ok(profile);
        }
    }
    SequenceSet::lent(letters, lengths)?;
    Template::check_number(components)?;
    Err(Refusal::at(Refusal::UNNAMED_BYTE, 0))
}

/// The values of a sequence's letters: "A 0, C 1, G 2, T 3".
const A: u8 = 0;
const C: u8 = 1;
const G: u8 = 2;
const T: u8 = 3;

/// "Meaning by document 000's table": the bases of each letter, by its place
/// in the order, in that table's words ("S: G,C").
const BASES: [&[u8]; 14] = [
    &[A],
    &[C],
    &[G],
    &[T],
    &[A, G],
    &[C, T],
    &[G, T],
    &[A, C],
    &[G, C],
    &[A, T],
    &[C, G, T],
    &[A, G, T],
    &[A, C, T],
    &[A, C, G],
];

/// The bases of a motif's letter. A digit of 14 or 15 is no letter and has
/// none.
pub(crate) fn bases(motif_letter: u8) -> &'static [u8] {
    BASES.get(usize::from(motif_letter)).unwrap_or(&&[][..])
}

/// Whether a sequence's letter is one of the bases of a motif's letter.
pub(crate) fn fits(motif_letter: u8, value: u8) -> bool {
    bases(motif_letter).contains(&value)
}

/// Whether a motif's letter is one of the "letters that stand for several
/// bases".
pub(crate) fn stands_for_several(motif_letter: u8) -> bool {
    bases(motif_letter).len() > 1
}
