//! Recoveries in both profiles: every motif and first row that matters on small
//! sets, buffers of any length, lists too long to be written whole, and numbers
//! that are no motif's.

use super::alphabets::{deepest, exact, shape, spelled, word, Parts};
use super::answer::search;
use super::begins::{faulty_set, faulty_value};
use super::legs::enough;
use super::random::Random;
use super::request::{Kind, Request, Set, Slot, Value};
use crate::Profile;
use std::rc::Rc;

struct Recovery {
    motif: u64,
    first_row: u64,
    room: u64,
}

fn request(set: &Rc<Set>, value: Value, asked: Recovery, random: &mut Random) -> Request {
    Request {
        motif: asked.motif,
        first_row: asked.first_row,
        rows: random.narrow(asked.room as usize),
        ..Request::new(Kind::Recover, set, value)
    }
}

/// The length of a motif's list, and 0 if the recovery is refused.
fn list_length(set: &Set, value: &Value, motif: u64) -> u64 {
    let template = search(value).template;
    crate::recover(&set.letters, &set.lengths, &template, motif, 0, &mut [])
        .map_or(0, |recovered| recovered.length)
}

/// A motif's list from its start, its middle and its end on, from just past
/// it and from far past it, into buffers about as long as a row, two rows and
/// the whole list.
fn around(set: &Rc<Set>, value: Value, motif: u64, random: &mut Random) -> Vec<Request> {
    let length = list_length(set, &value, motif);
    let row = u64::from(value.count) + 1;
    let mut first_rows = vec![0, 1, length.saturating_sub(1), length, length + 1, u64::MAX];
    // The rows under one first start are passed over one by one, so where
    // they are very many no row in their middle is asked for.
    if length < 1 << 32 {
        first_rows.push(length / 2);
    }
    let mut requests = Vec::new();
    for first_row in first_rows {
        let all = length.saturating_sub(first_row).min(50) * row;
        let rooms = match first_row {
            0 => vec![
                0,
                1,
                row - 1,
                row,
                row + 1,
                2 * row - 1,
                2 * row,
                all,
                all + 7,
            ],
            1 => vec![row - 1, row, all],
            _ => vec![all],
        };
        for room in rooms {
            let asked = Recovery {
                motif,
                first_row,
                room,
            };
            requests.push(request(set, value, asked, random));
        }
    }
    requests
}

/// All motifs, where there are at most 16, or some of a longer template: ones
/// that a search lists, the first and last numbers, and the first past them.
fn motifs(set: &Set, value: &Value, random: &mut Random) -> Vec<u64> {
    let letters = value.letters_in_all() as u32;
    // At 32 letters of the exact profile and at 16 of the mixed there is none.
    let past = value.profile.base().checked_pow(letters);
    if let Some(past) = past.filter(|past| *past <= 16) {
        return (0..=past).collect();
    }
    let mut found = vec![0; 40];
    let (mut supports, mut weights) = ([0; 40], [0; 40]);
    let (lent, lengths) = (&set.letters[..], &set.lengths[..]);
    let template = search(value).template;
    let steps = enough(value.profile).0.min(5_000);
    let mut motifs = match crate::begin(lent, lengths, &template, 1) {
        Ok(begun) => {
            let (m, s, w) = (&mut found[..], &mut supports[..], &mut weights[..]);
            let leg = crate::leg(lent, lengths, &begun, steps, m, s, w);
            found.truncate(leg.rows);
            (0..4)
                .filter(|_| leg.rows > 0)
                .map(|_| random.pick(&found))
                .collect()
        }
        Err(_) => Vec::new(),
    };
    motifs.extend([0, past.unwrap_or(0).wrapping_sub(1), random.any()]);
    motifs.extend(past);
    motifs
}

/// A long run of one letter, so that the list has more rows than are ever
/// written; with six components at the widest gaps, up to 7 times 10 to the
/// 16th.
fn long_lists(profile: Profile, random: &mut Random) -> Vec<Request> {
    let (run, other, word) = match profile {
        Profile::Exact => (b'A', b'A', b"AAAAAA"),
        Profile::Mixed => (b'G', b'T', b"GKSRBD"),
    };
    let mut requests = Vec::new();
    for (letters, components, widest) in [
        (300, 3, 100),
        (2_000, 3, 255),
        (2_000, 6, 255),
        (60_000, 2, 255),
        (65_496, 6, 255),
    ] {
        let set = Rc::new(Set::of(&[vec![run; letters], vec![other; 40]]));
        let value = shape(profile, &vec![(1, 1); components], widest);
        let motif = value.at(&word[..components]).number;
        requests.extend(around(&set, value, motif, random));
    }
    requests
}

/// Small sets, random ones, and one over which the last motif is the largest
/// number there is, or close to it.
fn sets(profile: Profile, random: &mut Random) -> Vec<(Set, Value)> {
    let three = [Slot::new(3, 0, 0), Slot::new(2, 0, 3), Slot::new(4, 1, 3)];
    let mut sets = vec![
        (Set::e(), Value::pair()),
        (Set::of(&["AAA"]), Value::pair()),
        (Set::worked_example(), Value::of(&three)),
    ];
    for _ in 0..50 {
        let alphabet = random.within(1, 4);
        let set = random.set(6, 40, alphabet);
        let (most, widest) = (random.pick(&[3, 6, 10]), random.pick(&[1, 5, 40]));
        sets.push((set, random.template(most, widest)));
    }
    let deep = shape(profile, deepest(profile)[0], 255);
    sets.push((Set::of(&[vec![b'T'; 80], vec![b'A'; 50]]), deep));
    sets.into_iter()
        .map(|(set, value)| (set, random.in_profile(profile, value, 2)))
        .collect()
}

/// All numbers of up to two letters and some past them, over E, each list from
/// its first row on and from past its end.
fn every_number(profile: Profile, random: &mut Random) -> Vec<Request> {
    let set = Rc::new(Set::e());
    let mut requests = Vec::new();
    let templates: [(Parts, u16); 6] = [
        (&[(1, 1), (1, 1)], 1),
        (&[(1, 0), (1, 1)], 1),
        (&[(1, 1), (1, 0)], 3),
        (&[(2, 1)], 0),
        (&[(2, 2)], 0),
        (&[(1, 1)], 0),
    ];
    for (parts, high) in templates {
        let value = shape(profile, parts, high);
        let past = profile.base().pow(2);
        for motif in (0..=past + 16).chain([1 << 32, u64::MAX]) {
            let rows = 3 * (parts.len() as u64 + 1);
            for (first_row, room) in [(0, rows), (1, 40), (2, rows)] {
                let asked = Recovery {
                    motif,
                    first_row,
                    room,
                };
                requests.push(request(&set, value, asked, random));
            }
        }
    }
    requests
}

/// A word's number, the same with another digit at one place, in the mixed
/// profile also with one that is no letter's or that is over the allowance, and
/// the first past all numbers of so many letters.
fn about(value: &Value, word: &[u8], random: &mut Random) -> Vec<u64> {
    let number = value.at(word).number;
    let power = random.below(word.len() as u64) as u32;
    let unit = value.profile.base().pow(power);
    let digit = number / unit % value.profile.base();
    let digits: &[u64] = match value.profile {
        Profile::Exact => &[0, 1, 2, 3],
        Profile::Mixed => &[13, 14, 15],
    };
    let mut numbers = vec![number];
    numbers.extend(
        digits
            .iter()
            .map(|other| number - digit * unit + other * unit),
    );
    numbers.extend(value.profile.base().checked_pow(word.len() as u32));
    numbers
}

/// Words that stand in their sequences once to three times, however each spells
/// them, of templates of as many letters as there may be, and of random ones.
fn spelled_words(profile: Profile, random: &mut Random) -> Vec<Request> {
    let mut templates: Vec<Value> = deepest(profile)
        .iter()
        .map(|parts| shape(profile, parts, 3))
        .collect();
    for _ in 0..40 {
        let (most, widest) = (random.pick(&[3, 6, 10]), random.pick(&[1, 5, 40]));
        let value = random.template(most, widest);
        templates.push(random.in_profile(profile, value, 2));
    }
    let mut requests = Vec::new();
    for value in templates {
        let word = word(&value, random);
        let mut sequences = vec![Vec::new(); random.within(1, 4) as usize];
        for sequence in &mut sequences {
            for _ in 0..random.within(1, 3) {
                let before = random.below(9);
                sequence.extend(random.letters(before, 4));
                sequence.extend(spelled(&word, random));
            }
        }
        let set = Rc::new(Set::of(&sequences));
        for motif in about(&value, &word, random) {
            requests.extend(around(&set, value, motif, random));
        }
    }
    requests
}

/// Sets and templates with faults, of mixed ones some in the exact profile with
/// other allowances.
fn faulty(profile: Profile, random: &mut Random) -> Vec<Request> {
    let small = match profile {
        Profile::Exact => 20,
        Profile::Mixed => 300,
    };
    let mut requests = Vec::new();
    for _ in 0..3_000 {
        let set = Rc::new(faulty_set(random));
        let mut value = faulty_value(profile, random, &set);
        if profile == Profile::Mixed && random.once_in(6) {
            value = exact(value, random);
        }
        let asked = Recovery {
            motif: if random.once_in(3) {
                random.edge()
            } else {
                random.below(small)
            },
            first_row: random.below(6),
            room: random.below(30),
        };
        requests.push(request(&set, value, asked, random));
    }
    requests
}

pub fn requests(profile: Profile, random: &mut Random) -> Vec<Request> {
    let sets = sets(profile, random);
    let mut requests = long_lists(profile, random);
    for (set, value) in sets {
        let set = Rc::new(set);
        for motif in motifs(&set, &value, random) {
            requests.extend(around(&set, value, motif, random));
        }
    }
    requests.extend(faulty(profile, random));
    requests.extend(every_number(profile, random));
    requests.extend(spelled_words(profile, random));
    requests
}
