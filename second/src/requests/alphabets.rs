//! What the requests share over both profiles: templates with allowances, and
//! words of their letters.

use super::random::Random;
use super::request::{Slot, Value};
use crate::profile::bases;
use crate::Profile;

/// The lengths and the allowances of a template's components.
pub type Parts = &'static [(u16, u16)];

/// A template of these parts, with gaps of 0 to `high`. The exact profile has no
/// allowances.
pub fn shape(profile: Profile, parts: &[(u16, u16)], high: u16) -> Value {
    let mut slots: Vec<Slot> = parts
        .iter()
        .map(|(length, _)| Slot::new(*length, 0, high))
        .collect();
    slots[0].high = 0;
    let allowances: Vec<u16> = parts.iter().map(|(_, allowance)| *allowance).collect();
    match profile {
        Profile::Exact => Value::of(&slots),
        Profile::Mixed => Value::of(&slots).mixed(&allowances),
    }
}

/// The parts of templates of as many letters as there may be.
pub fn deepest(profile: Profile) -> &'static [Parts] {
    match profile {
        Profile::Exact => &[&[(12, 0), (12, 0), (8, 0)]],
        Profile::Mixed => &[
            &[(12, 0), (4, 0)],
            &[(12, 1), (4, 0)],
            &[(6, 0), (5, 1), (5, 0)],
            &[(4, 1), (4, 0), (4, 0), (4, 1)],
            &[(3, 0), (3, 0), (3, 0), (3, 0), (2, 0), (2, 1)],
            &[(12, 0), (4, 2)],
        ],
    }
}

/// The same search with any allowances in the exact profile, which are not
/// looked at.
pub fn exact(mut value: Value, random: &mut Random) -> Value {
    value.profile = Profile::Exact;
    for slot in &mut value.slots {
        slot.allowance = any_allowance(random);
    }
    value
}

/// An allowance that is small, at the edge of a width, or anything.
pub fn any_allowance(random: &mut Random) -> u16 {
    let any = random.any() as u16;
    random.pick(&[0, 1, 2, 3, 11, 12, 13, 255, 256, 65_535, any])
}

/// A random word for a template: as many mixed letters in each component as its
/// allowance says, or fewer.
pub fn word(value: &Value, random: &mut Random) -> Vec<u8> {
    let mut word = Vec::new();
    for slot in &value.slots[..value.count.into()] {
        let mut part = random.letters(slot.length.into(), 4);
        if value.profile == Profile::Mixed {
            for _ in 0..slot.allowance {
                let at = random.below(slot.length.into()) as usize;
                part[at] = random.pick(Profile::Mixed.letters());
            }
        }
        word.extend(part);
    }
    word
}

/// Letters of a sequence in which a word stands: one of the bases of each of its
/// letters, which in an exact word is that letter.
pub fn spelled(word: &[u8], random: &mut Random) -> Vec<u8> {
    let letters = Profile::Mixed.letters();
    let base = |letter: &u8| {
        let digit = letters.iter().position(|l| l == letter);
        let base = match bases(digit.expect("a letter") as u8) {
            [base] => *base,
            several => random.pick(several),
        };
        b"ACGT"[usize::from(base)]
    };
    word.iter().map(base).collect()
}
