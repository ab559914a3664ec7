//! Restores of damaged saves, of one to six components, in both profiles: cut,
//! lengthened and changed in each byte.

use super::alphabets::{deepest, shape, Parts};
use super::answer::Answer;
use super::random::Random;
use super::request::{Kind, Request, Set, Slot, Value};
use super::saves::{restore, saved};
use crate::Profile;
use std::rc::Rc;

/// Lent sequences, and saves of a search over them.
pub type Saves = (Rc<Set>, Vec<Vec<u8>>);

/// The parts of an exact and of a mixed template of one to six components: as
/// many letters as they can have, from three components on 32, and from two on
/// 16.
const PARTS: [(Parts, Parts); 6] = [
    (&[(12, 0)], &[(12, 1)]),
    (&[(12, 0), (12, 0)], &[(12, 0), (4, 1)]),
    (&[(12, 0), (12, 0), (8, 0)], &[(6, 1), (5, 0), (5, 1)]),
    (
        &[(8, 0), (8, 0), (8, 0), (8, 0)],
        &[(4, 0), (4, 1), (4, 0), (4, 1)],
    ),
    (
        &[(7, 0), (6, 0), (7, 0), (6, 0), (6, 0)],
        &[(4, 0), (3, 0), (3, 1), (3, 0), (3, 1)],
    ),
    (
        &[(6, 0), (5, 0), (5, 0), (5, 0), (5, 0), (6, 0)],
        &[(3, 0), (3, 0), (3, 1), (3, 0), (2, 0), (2, 2)],
    ),
];

/// The gap ranges before an exact one's components.
const RANGES: [(u16, u16); 6] = [(0, 0), (0, 1), (1, 1), (0, 0), (1, 2), (0, 1)];

/// A template of so many components, which its sequences have to hold over a
/// stretch of so many letters.
fn template(profile: Profile, components: usize) -> (Value, u64) {
    let (exact, mixed) = PARTS[components - 1];
    match profile {
        Profile::Exact => {
            let mut value = shape(profile, exact, 0);
            for (slot, (low, high)) in value.slots.iter_mut().zip(RANGES).take(components) {
                *slot = Slot::new(slot.length, low, high);
            }
            (value, 42)
        }
        Profile::Mixed => (shape(profile, mixed, 1), 20),
    }
}

/// A search at the places that it passes, one after another, with the ended one
/// for its last.
fn walk(set: &Rc<Set>, value: Value) -> impl Iterator<Item = Value> + '_ {
    let begun = Answer::expected(&Request::new(Kind::Begin, set, value)).search();
    let next = |search: &Value| {
        let leg = Request {
            budget: 1,
            motifs: vec![0],
            supports: vec![0],
            weights: vec![0],
            ..Request::new(Kind::Leg, set, *search)
        };
        (search.place != 0).then(|| Answer::expected(&leg).search())
    };
    std::iter::successors(Some(begun), next)
}

/// A search when it is fresh, in the middle, as many letters deep as its motifs
/// have, and ended. A mixed search is walked only until it comes to a place that
/// is so deep and has a mixed letter last.
fn places(set: &Rc<Set>, value: Value) -> [Value; 4] {
    let letters = value.letters_in_all();
    let is_deep = |search: &Value| u64::from(search.place) == letters;
    let (passed, deep) = match value.profile {
        Profile::Exact => {
            let passed: Vec<Value> = walk(set, value).collect();
            let deep = passed.iter().rfind(|search| is_deep(search)).copied();
            (passed, deep)
        }
        Profile::Mixed => {
            let mut passed = Vec::new();
            let mut walk = walk(set, value).inspect(|search| passed.push(*search));
            let deep = walk.find(|search| is_deep(search) && search.number % 16 > 3);
            drop(walk);
            (passed, deep)
        }
    };
    [
        passed[0],
        passed[passed.len() / 2],
        deep.expect("a place as deep as the motifs"),
        passed[0].ended(),
    ]
}

/// The saves of a search of so many components at those places, over two
/// sequences that have a stretch of letters in common.
pub fn damageable(profile: Profile, components: usize, random: &mut Random) -> Saves {
    let (value, letters) = template(profile, components);
    let stretch = random.letters(letters, 4);
    let sequence = |random: &mut Random| {
        let (before, after) = (random.letters(2, 4), random.letters(3, 4));
        [before, stretch.clone(), after].concat()
    };
    let set = Rc::new(Set::of(&[sequence(random), sequence(random)]));
    let value = value.with_quorum(2);
    let saves = places(&set, value).map(|value| saved(&set, value, random));
    (set, saves.to_vec())
}

/// The saves at those places of a search of three components over eight
/// sequences, all of which it asks for: a change of its quorum can make it
/// another search's save.
fn damageable_of_eight(random: &mut Random) -> Saves {
    let stretch = random.letters(44, 4);
    let sequences: Vec<Vec<u8>> = (0..8)
        .map(|_| [random.letters(9, 4), stretch.clone(), random.letters(7, 4)].concat())
        .collect();
    let set = Rc::new(Set::of(&sequences));
    let value = shape(Profile::Exact, deepest(Profile::Exact)[0], 2).with_quorum(8);
    let saves = places(&set, value).map(|value| saved(&set, value, random));
    (set, saves.to_vec())
}

/// The saves of E's search at four places, all of one or two letters but the
/// ended one.
fn damageable_e(random: &mut Random) -> Saves {
    let set = Rc::new(Set::e());
    let passed: Vec<Value> = walk(&set, Value::pair().with_quorum(2)).collect();
    let saves = [0, 4, 11, 20].map(|steps| saved(&set, passed[steps], random));
    (set, saves.to_vec())
}

/// Restores of every truncation of each save, of each with some bytes more,
/// and of every change of a single byte; or, of those changes, all that `all`
/// asks for and some others.
fn cut_and_changed(
    (set, saves): Saves,
    all: impl Fn(usize, &[u8]) -> bool,
    random: &mut Random,
) -> Vec<Request> {
    let mut requests = Vec::new();
    for bytes in saves {
        for length in 0..=bytes.len() {
            requests.push(restore(&set, bytes[..length].to_vec()));
        }
        for more in [1, 15, 16, 17, 32] {
            let more = [vec![0; more], random.bytes(more)];
            requests.extend(more.map(|more| restore(&set, [&bytes[..], &more].concat())));
        }
        for at in 0..bytes.len() {
            for change in 1..=u8::MAX {
                if all(at, &bytes) || change.is_power_of_two() || random.once_in(60) {
                    let mut changed = bytes.clone();
                    changed[at] ^= change;
                    requests.push(restore(&set, changed));
                }
            }
        }
    }
    requests
}

pub fn one_byte_of_e(random: &mut Random) -> Vec<Request> {
    cut_and_changed(damageable_e(random), |_, _| true, random)
}

pub fn one_byte_of_eight(random: &mut Random) -> Vec<Request> {
    cut_and_changed(damageable_of_eight(random), |_, _| true, random)
}

pub fn one_byte(components: usize, random: &mut Random) -> Vec<Request> {
    let saves = damageable(Profile::Exact, components, random);
    cut_and_changed(saves, |_, _| true, random)
}

/// The same of mixed searches of one to six components. What a byte tells whose
/// meaning the profile does not change is tried by some of its changes; every
/// change is made of the profile, of an allowance and of the place.
pub fn one_mixed_byte(random: &mut Random) -> Vec<Request> {
    let of_the_profile = |at: usize, bytes: &[u8]| {
        let place = bytes.len() - 16;
        let allowance = at % 16 == 3 && at > 16 && at < place;
        at == 12 || allowance || at == place + 1 || at == place + 8
    };
    let mut requests = Vec::new();
    for components in 1..=6 {
        let saves = damageable(Profile::Mixed, components, random);
        requests.extend(cut_and_changed(saves, of_the_profile, random));
    }
    requests
}
