//! Places of a search: prefixes, in letter order.

use crate::profile::Profile;
use crate::template::Template;

/// A prefix as its number of letters and its number; as the place of a search
/// it is the next candidate. "An ended search has place 0 and number 0."
#[derive(Clone, Debug, PartialEq, Eq)]
pub struct Place {
    /// How many letters the prefix has.
    pub letters: u8,
    /// "Its number reads them as base-4 digits, the first letter the highest";
    /// in the mixed profile "numbers are base 16".
    pub number: u64,
}

/// The base, 4 or 16, to the power of a number of letters. Held wide, because
/// "4 to the power of 32 formed in 64 bits" is lost; past what 128 bits hold it
/// stays at their largest number, which lies above every 64-bit number all the
/// same.
fn power(profile: Profile, letters: u64) -> u128 {
    u128::from(profile.base()).saturating_pow(u32::try_from(letters).unwrap_or(u32::MAX))
}

impl Place {
    /// "first A"
    pub const FIRST: Place = Place {
        letters: 1,
        number: 0,
    };
    /// "An ended search has place 0 and number 0."
    pub const ENDED: Place = Place {
        letters: 0,
        number: 0,
    };

    /// "The place rule: place is 0 to K, and the number lies below 4 to the
    /// power of the place." In the mixed profile it reads "16 for 4", and "a
    /// digit of 14 or 15, or a letter over the allowance," breaks it.
    pub fn keeps_its_rule(&self, template: &Template) -> bool {
        let letters = u64::from(self.letters);
        letters <= template.letters_in_all()
            && u128::from(self.number) < power(template.profile, letters)
            && template.allows(&self.values(template.profile))
    }

    /// The letters as digits of the number, first letter first.
    pub fn values(&self, profile: Profile) -> Vec<u8> {
        let mut number = self.number;
        let mut values = Vec::new();
        for _ in 0..self.letters {
            values.push((number % profile.base()) as u8);
            number /= profile.base();
        }
        values.reverse();
        values
    }

    /// The "prefix one letter shorter"; of the empty prefix, itself.
    pub fn shorter(&self, profile: Profile) -> Place {
        Place {
            letters: self.letters.saturating_sub(1),
            number: self.number / profile.base(),
        }
    }

    /// The same prefix with its last letter gone up to the next one in the
    /// order that may stand there; none if that "has no allowed one above it".
    /// In the exact profile a T has none, and every other letter goes up by
    /// one.
    fn gone_up(&self, template: &Template) -> Option<Place> {
        let profile = template.profile;
        let last = u64::from(*self.values(profile).last()?);
        (last + 1..profile.letters().len() as u64)
            .map(|letter| Place {
                letters: self.letters,
                number: self.number - last + letter,
            })
            .find(|place| template.allows(&place.values(profile)))
    }

    /// "After a frequent candidate shorter than K, the same with A added;
    /// otherwise trailing Ts are dropped and the last letter goes up by one;
    /// when nothing is left the search has ended."
    ///
    /// In the mixed profile "a letter beyond the component's allowance makes no
    /// candidate and no step", and "a last letter with no allowed one above it
    /// is dropped as T was".
    ///
    /// The place keeps its rule and K is at most 32, in the mixed profile 16, so
    /// that a place shorter than K has a number below 4^31 or 16^15.
    pub(crate) fn after(&self, frequent: bool, template: &Template) -> Place {
        if frequent && u64::from(self.letters) < template.letters_in_all() {
            return Place {
                letters: self.letters + 1,
                number: self.number * template.profile.base(),
            };
        }
        let mut left = self.clone();
        while left.letters > 0 {
            if let Some(next) = left.gone_up(template) {
                return next;
            }
            left = left.shorter(template.profile);
        }
        Place::ENDED
    }
}
