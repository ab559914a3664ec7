//! Legs and saves of search values that no call gave, in both profiles, and of
//! exact ones with allowances.

use super::alphabets::{any_allowance, deepest, exact, shape, word};
use super::begins::{faulty_set, faulty_value};
use super::legs::{leg, shared, underway};
use super::random::Random;
use super::request::{Kind, Request, Set, Slot, Value};
use super::saves::first_letter;
use crate::Profile;
use std::rc::Rc;

/// The other profile.
fn other(profile: Profile) -> Profile {
    match profile {
        Profile::Exact => Profile::Mixed,
        Profile::Mixed => Profile::Exact,
    }
}

/// A mixed number with a digit changed: for 14 or 15, or for a mixed letter's,
/// as often as not.
fn with_digit(number: u64, letters: u8, random: &mut Random) -> u64 {
    let at = 4 * random.below(u64::from(letters.clamp(1, 16)));
    let digit = random.pick(&[0, 3, 4, 9, 13, 13, 14, 15]);
    number & !(15 << at) | digit << at
}

/// A fault that only the mixed profile has.
fn forge_mixed(value: &mut Value, at: usize, random: &mut Random) {
    match random.below(5) {
        0 | 1 => value.number = with_digit(value.number, value.place, random),
        2 => value.slots[at].allowance = any_allowance(random),
        3 => value.slots[at].allowance = random.below(3) as u16,
        // All else stays as it is.
        _ => value.profile = other(value.profile),
    }
}

/// A search value with up to three faults.
fn forged(mut value: Value, random: &mut Random) -> Value {
    let profile = value.profile;
    let most = profile.most_letters() as u8;
    let letters = value.letters_in_all() as u8;
    for _ in 0..random.below(4) {
        let at = random.below(6) as usize;
        if profile == Profile::Mixed && random.once_in(3) {
            forge_mixed(&mut value, at, random);
            continue;
        }
        let power = profile.base().checked_pow(value.place.into());
        match random.below(12) {
            0 => value.count = random.pick(&[0, 1, 2, 6, 7, 65_535]),
            1 => value.slots[at].length = random.pick(&[0, 1, 12, 13, 255, 256, 65_535]),
            2 => value.slots[at].low = random.pick(&[0, 1, 255, 256]),
            3 => value.slots[at].high = random.pick(&[0, 1, 255, 256]),
            4 => value.quorum = random.edge(),
            5 => {
                let more = random.pick(&[1, u32::MAX, 65_536]);
                value.sequences = value.sequences.wrapping_add(more);
            }
            6 => {
                let more = random.pick(&[1, u32::MAX, 65_536]);
                value.letters = value.letters.wrapping_add(more);
            }
            7 => {
                let places = [0, 1, letters, letters.wrapping_add(1), most, most + 1, 255];
                value.place = random.pick(&places);
            }
            8 => value.number = random.edge(),
            // The place rule's edge: the last number below the base to the power
            // of the place, and the first that is not.
            9 => value.number = power.unwrap_or(0).wrapping_sub(1),
            10 => value.number = power.unwrap_or(u64::MAX),
            _ => value.number = random.below(power.unwrap_or(u64::MAX)),
        }
    }
    value
}

/// A leg and a save of a value.
fn leg_and_save(set: &Rc<Set>, value: Value, random: &mut Random) -> [Request; 2] {
    let budget = random.pick(&[0, 1, 3, 50]);
    let rooms = [(); 3].map(|()| random.below(5));
    let leg = leg(set, value, budget, rooms, random);
    let room = random.pick(&[0, 16, 47, 48, 63, 64, 127, 128, 140]);
    let save = Request {
        saved: random.bytes(room),
        ..Request::new(Kind::Save, set, value)
    };
    [leg, save]
}

/// Legs and saves of forged values, over sets that keep the rules or break
/// one.
pub fn any(profile: Profile, random: &mut Random) -> Vec<Request> {
    let run = match profile {
        Profile::Exact => [b'T'; 40].to_vec(),
        Profile::Mixed => [b'T'; 20].to_vec(),
    };
    let mut requests = Vec::new();
    while requests.len() < 12_000 {
        let set = Rc::new(match random.below(12) {
            0 => faulty_set(random),
            1 => shared(&run, 3, random),
            _ => random.set(4, 25, 3),
        });
        let value = match (random.below(8), deepest(profile)) {
            (0, _) => faulty_value(profile, random, &set),
            (1, [only]) => shape(profile, only, 1),
            (1, several) => shape(profile, random.pick(several), 1),
            _ => {
                let value = random.template(5, 4);
                random.in_profile(profile, value, 2)
            }
        };
        let value = value.with_quorum(random.within(1, set.lengths.len().max(1) as u64));
        let start = underway(&set, value, random).unwrap_or(value);
        for _ in 0..4 {
            let forged = forged(start, random);
            requests.extend(leg_and_save(&set, forged, random));
        }
        if profile == Profile::Mixed && random.once_in(4) {
            let value = first_letter(exact(start, random));
            requests.extend(leg_and_save(&set, value, random));
        }
    }
    requests
}

/// Numbers about the edge of the place rule for so many letters: the last below
/// the base to their power, and the first that is not, where 64 bits hold it;
/// of mixed ones also such as have digits about the last letter's.
fn numbers(profile: Profile, letters: u8, random: &mut Random) -> Vec<u64> {
    let power = profile.base().checked_pow(letters.into());
    let mut numbers = match power {
        Some(power) => vec![0, power - 1, power, u64::MAX],
        None => vec![0, 1 << 63, u64::MAX],
    };
    if profile == Profile::Mixed {
        numbers.extend([13, 14, 15]);
        match power {
            Some(power) => numbers.push(power - power / 16 * 2),
            None => numbers.extend([0xDDDD_DDDD_DDDD_DDDD, 0xE << 60]),
        }
        numbers.extend([(); 3].map(|()| with_digit(0, letters, random)));
    }
    numbers
}

/// The same value with one fault more, which comes after the place rule.
fn with_later_fault(mut value: Value, random: &mut Random) -> Value {
    let faults = match value.profile {
        Profile::Exact => 5,
        Profile::Mixed => 6,
    };
    match random.below(faults) {
        0 => value.slots[0].length += 12,
        1 => value.slots[1].low = 256,
        2 => value.slots[0].high = 1,
        3 => value.letters += 1,
        4 => value.quorum = 0,
        _ => value.slots[0].allowance = 65_535,
    }
    value
}

/// Lengths of six components: of as many letters as there may be, of one more
/// and of far more; of mixed ones also such as are wrong, which is told after the
/// place rule.
fn lengths(profile: Profile) -> &'static [[u16; 6]] {
    match profile {
        Profile::Exact => &[[1; 6], [6, 5, 5, 5, 5, 6], [12; 6]],
        Profile::Mixed => &[
            [1; 6],
            [3, 3, 3, 3, 2, 2],
            [3, 3, 3, 3, 3, 2],
            [12; 6],
            [0, 2, 0, 300, 1, 2],
        ],
    }
}

/// Legs and saves of searches over E whose place breaks its rule or just keeps
/// it, by its letters, its number, and in the mixed profile a digit or an
/// allowance, with and without a fault that comes later in the order: of one to
/// six components, where the place record's number is told; and of none, of seven
/// and of very many, which is refused before. The slots that are not counted hold
/// numbers too, which make no difference.
pub fn place_rules(profile: Profile, random: &mut Random) -> Vec<Request> {
    let set = Rc::new(Set::e());
    let most = profile.most_letters() as u8;
    let mut requests = Vec::new();
    for lengths in lengths(profile) {
        for count in [0, 1, 2, 3, 4, 5, 6, 7, 65_535] {
            let slots = lengths.map(|length| Slot::new(length, 0, 0));
            let mut value = Value {
                profile,
                count,
                ..Value::of(&slots).with_quorum(2).over(&set)
            };
            if profile == Profile::Mixed {
                for slot in &mut value.slots {
                    slot.allowance = random.pick(&[0, 1, 2, slot.length]);
                }
            }
            let k = value.letters_in_all().min(254) as u8;
            let mut places = vec![0, 1, k, k + 1, most - 1, most, most + 1, 255];
            places.sort();
            places.dedup();
            for place in places {
                for number in numbers(profile, place, random) {
                    for value in [value, with_later_fault(value, random)] {
                        let value = Value {
                            place,
                            number,
                            ..value
                        };
                        requests.extend(leg_and_save(&set, value, random));
                    }
                }
            }
        }
    }
    if profile == Profile::Mixed {
        requests.extend(full_words(random));
    }
    requests
}

/// Places that a word just fills, with as many mixed letters in each component
/// as it allows, and with one of the allowances one lower.
fn full_words(random: &mut Random) -> Vec<Request> {
    let set = Rc::new(Set::e());
    let mut requests = Vec::new();
    for parts in deepest(Profile::Mixed).repeat(12) {
        let value = shape(Profile::Mixed, parts, 1).with_quorum(1).over(&set);
        let value = random.mixed(value, 12);
        let word = word(&value, random);
        let letters = random.within(1, 16) as usize;
        let value = value.at(&word[..letters]);
        requests.extend(leg_and_save(&set, value, random));
        for slot in 0..parts.len() {
            let mut value = value;
            value.slots[slot].allowance = value.slots[slot].allowance.saturating_sub(1);
            requests.extend(leg_and_save(&set, value, random));
        }
    }
    requests
}
