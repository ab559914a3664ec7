//! The template: its profile, components and the gap ranges before them.

use crate::profile::{stands_for_several, Profile};
use crate::refusal::Refusal;

/// "Before each component but the first stands a gap range l, u." "Each
/// component has a most number of letters that stand for several bases."
#[derive(Clone, Debug, PartialEq, Eq)]
pub struct Component {
    /// The component's letters.
    pub length: u8,
    /// l, the smallest gap before the component.
    pub low: u16,
    /// u, the largest gap before the component.
    pub high: u16,
    /// The allowance: the most letters that stand for several bases. The exact
    /// profile does not look at it.
    pub allowance: u16,
}

impl Component {
    /// "components of 1 to 12 letters"
    pub const MOST_LETTERS: u8 = 12;
    /// "0 <= l <= u <= 255"
    pub const WIDEST_GAP: u16 = 255;
}

/// Components in order. Any number of them can be held; the checks decide.
#[derive(Clone, Debug, PartialEq, Eq)]
pub struct Template {
    /// The profile.
    pub profile: Profile,
    /// The components, first to last.
    pub components: Vec<Component>,
}

/// "components of 1 to 12 letters"; the same for a join's head.
pub(crate) fn component_length_is_right(length: u8) -> bool {
    (1..=Component::MOST_LETTERS).contains(&length)
}

/// "a gap range l, u with 0 <= l <= u <= 255"
pub(crate) fn gap_range_is_right(low: u16, high: u16) -> bool {
    low <= high && high <= Component::WIDEST_GAP
}

impl Template {
    /// "A template has 1 to 6 components"
    pub const MOST_COMPONENTS: usize = 6;

    /// K, the letters in all.
    pub fn letters_in_all(&self) -> u64 {
        self.components
            .iter()
            .map(|component| u64::from(component.length))
            .sum()
    }

    /// A prefix's letters, dealt out to the components in order: "the last
    /// component cut short and later ones dropped".
    pub(crate) fn dealt_out<'a>(&'a self, letters: &'a [u8]) -> Vec<(&'a Component, &'a [u8])> {
        let mut left = letters;
        let mut dealt_out = Vec::new();
        for component in &self.components {
            if left.is_empty() {
                break;
            }
            let (part, later) = left.split_at(left.len().min(component.length as usize));
            dealt_out.push((component, part));
            left = later;
        }
        dealt_out
    }

    /// Whether these digits are letters of the profile, and in each component
    /// at most as many "stand for several bases" as its allowance says: "a
    /// digit of 14 or 15, or a letter over the allowance" is none. In the exact
    /// profile no letter stands for several.
    pub(crate) fn allows(&self, letters: &[u8]) -> bool {
        let known = self.profile.letters().len();
        letters.iter().all(|letter| usize::from(*letter) < known)
            && self.dealt_out(letters).iter().all(|(component, part)| {
                let several = part.iter().filter(|letter| stands_for_several(**letter));
                several.count() <= usize::from(component.allowance)
            })
    }

    /// The template as a new search has it. The exact profile has no
    /// allowances, and what a search does not use is 0 in it.
    pub(crate) fn without_what_is_unused(&self) -> Template {
        let mut template = self.clone();
        if template.profile == Profile::Exact {
            for component in &mut template.components {
                component.allowance = 0;
            }
        }
        template
    }

    /// "5 to 8" in the order of a new search and of a recovery, and "24
    /// allowance above the length, after 8".
    pub(crate) fn check(&self) -> Result<(), Refusal> {
        self.check_number_of_components()?;
        self.check_component_lengths()?;
        self.check_letters_in_all()?;
        self.check_gap_ranges()?;
        self.check_allowances()
    }

    /// Refusal 5, "number of components".
    pub(crate) fn check_number_of_components(&self) -> Result<(), Refusal> {
        Self::check_number(self.components.len())
    }

    /// The same of a number alone.
    pub(crate) fn check_number(components: usize) -> Result<(), Refusal> {
        if (1..=Self::MOST_COMPONENTS).contains(&components) {
            Ok(())
        } else {
            Err(Refusal::plain(Refusal::NUMBER_OF_COMPONENTS))
        }
    }

    /// Refusal 6, "component length", told at the "first such component".
    pub(crate) fn check_component_lengths(&self) -> Result<(), Refusal> {
        for (number, component) in (1..).zip(&self.components) {
            if !component_length_is_right(component.length) {
                return Err(Refusal::at(Refusal::COMPONENT_LENGTH, number));
            }
        }
        Ok(())
    }

    /// Refusal 7, "K above 32"; "7 reads 16 here", in the mixed profile.
    pub(crate) fn check_letters_in_all(&self) -> Result<(), Refusal> {
        if self.letters_in_all() <= self.profile.most_letters() {
            Ok(())
        } else {
            Err(Refusal::plain(Refusal::LETTERS_IN_ALL))
        }
    }

    /// Refusal 8, "gap range, also a first component's that is not 0, 0",
    /// told at the "first such component".
    pub(crate) fn check_gap_ranges(&self) -> Result<(), Refusal> {
        for (number, component) in (1..).zip(&self.components) {
            let right = if number == 1 {
                (component.low, component.high) == (0, 0)
            } else {
                gap_range_is_right(component.low, component.high)
            };
            if !right {
                return Err(Refusal::at(Refusal::GAP_RANGE, number));
            }
        }
        Ok(())
    }

    /// Refusal 24, "allowance above the length", of the mixed profile. "A
    /// refusal for which no place is named tells 0."
    pub(crate) fn check_allowances(&self) -> Result<(), Refusal> {
        let above = |component: &Component| component.allowance > u16::from(component.length);
        if self.profile == Profile::Mixed && self.components.iter().any(above) {
            Err(Refusal::plain(Refusal::ALLOWANCE))
        } else {
            Ok(())
        }
    }
}
