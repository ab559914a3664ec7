//! Legs laid end to end, in both profiles: over small sets and over as large ones
//! as there may be, to the end of the search or for a good part of it; and of
//! exact searches with allowances, which they do not look at.

use super::alphabets::{deepest, exact, shape, spelled, word, Parts};
use super::legs::{enough, leg, relay, shared, Grants, ALL};
use super::random::Random;
use super::request::{Request, Set, Slot, Value};
use crate::Profile;
use std::rc::Rc;

/// E's template, in the mixed profile with each allowance, and there also a
/// component of two letters.
fn small(profile: Profile) -> Vec<Value> {
    let mixed: [Parts; 7] = [
        &[(1, 0), (1, 0)],
        &[(1, 0), (1, 1)],
        &[(1, 1), (1, 0)],
        &[(1, 1), (1, 1)],
        &[(2, 0)],
        &[(2, 1)],
        &[(2, 2)],
    ];
    match profile {
        Profile::Exact => vec![Value::pair()],
        Profile::Mixed => mixed.map(|parts| shape(profile, parts, 1)).to_vec(),
    }
}

/// The worked example, with a mixed letter in its second component.
fn worked_example(profile: Profile) -> Value {
    let value = Value::of(&[Slot::new(3, 0, 0), Slot::new(2, 0, 3), Slot::new(4, 1, 3)]);
    match profile {
        Profile::Exact => value,
        Profile::Mixed => value.mixed(&[0, 1, 0]),
    }
}

/// As many letters as there may be, over sequences that have a stretch of them in
/// common; the last motif of all that four of these can list is that of a run of
/// Ts. In the mixed profile also over sequences that each spell a word as they
/// like.
fn deep(profile: Profile, random: &mut Random) -> Vec<Request> {
    let stretches = [
        vec![b'T'; 40],
        vec![b'A'; 40],
        random.letters(40, 4),
        random.letters(40, 4),
    ];
    let (legs, most) = match profile {
        Profile::Exact => (60, ALL),
        Profile::Mixed => (20, enough(profile)),
    };
    let mut requests = Vec::new();
    for parts in deepest(profile) {
        for stretch in &stretches {
            for high in [0, 2] {
                let set = shared(stretch, 4, random);
                let value = shape(profile, parts, high).with_quorum(4);
                requests.extend(relay(set, value, legs, Grants::Few, most, random));
            }
        }
    }
    if profile == Profile::Mixed {
        for (parts, high) in deepest(profile).iter().flat_map(|p| [(p, 0), (p, 2)]) {
            let value = shape(profile, parts, high).with_quorum(4);
            let word = word(&value, random);
            let spelled = [(); 4].map(|()| {
                let before = random.below(5);
                [random.letters(before, 4), spelled(&word, random)].concat()
            });
            let set = Set::of(&spelled);
            requests.extend(relay(set, value, 30, Grants::Few, most, random));
        }
    }
    requests
}

/// The last candidates of a template of as many letters as there may be, which
/// may all be mixed: from the last motif of all, sixteen Vs, or 32 Ts in the
/// exact profile, and from places before it, to the end.
fn last_of_all(profile: Profile, random: &mut Random) -> Vec<Request> {
    let (value, sequences) = match profile {
        Profile::Exact => (
            shape(profile, deepest(profile)[0], 0),
            [vec![b'T'; 40], vec![b'T'; 37]],
        ),
        Profile::Mixed => (
            shape(profile, &[(12, 12), (4, 4)], 0),
            [vec![b'G'; 20], vec![b'A'; 17]],
        ),
    };
    let set = Rc::new(Set::of(&sequences));
    let value = value.with_quorum(2).over(&set);
    let letters = profile.letters();
    let (last, before) = (letters[letters.len() - 1], letters[letters.len() - 2]);
    let k = profile.most_letters() as usize;
    let mut requests = Vec::new();
    for (lasts, more) in [
        (k, &[][..]),
        (k - 1, &[before]),
        (k - 1, b"A"),
        (k - 2, &[before, b'A']),
        (k - 1, &[]),
        (k - 2, &[]),
        (11, &[before]),
        (1, &[]),
    ] {
        let value = value.at(&[&vec![last; lasts], more].concat());
        for (budget, room) in [
            (0, 1),
            (1, 0),
            (1, 1),
            (16, 0),
            (16, 9),
            (40, 9),
            (1_000, 3),
        ] {
            requests.push(leg(&set, value, budget, [room; 3], random));
        }
    }
    requests
}

/// Only empty sequences, some among others, and as many sequences and letters as
/// there may be.
fn few_and_many(profile: Profile, random: &mut Random) -> Vec<Request> {
    let mut requests = Vec::new();
    let pair = shape(profile, &[(1, 0), (1, 1)], 1);
    for sequences in [1, 3, 1_024] {
        let (set, value) = (Set::of(&vec![""; sequences]), pair.with_quorum(1));
        requests.extend(relay(set, value, 9, Grants::Single, ALL, random));
    }
    if profile == Profile::Mixed {
        let (set, value) = (Set::of(&["", ""]), shape(profile, &[(1, 1)], 0));
        let value = value.with_quorum(1);
        requests.extend(relay(set, value, 30, Grants::Single, ALL, random));
    }
    let gaps = Set::of(&["", "ACGT", "", "", "GTAC", ""]);
    let value = pair.with_quorum(2);
    requests.extend(relay(gaps, value, 60, Grants::Few, ALL, random));
    let full: Vec<Vec<u8>> = (0..1_024).map(|_| random.letters(64, 3)).collect();
    let value = shape(profile, &[(2, 1), (1, 1)], 255).with_quorum(1_000);
    let most = match profile {
        Profile::Exact => ALL,
        Profile::Mixed => (60, 30),
    };
    let set = Set::of(&full);
    requests.extend(relay(set, value, 4, Grants::Few, most, random));
    requests
}

/// Searches by whose weights a wrong count shows.
fn weights(profile: Profile, random: &mut Random) -> Vec<Request> {
    let mut requests = Vec::new();
    // ACG twice in each of three sequences: from one first start, to one last
    // start, and both. Before, between and behind them it is in none.
    let shares = Set::of(&["", "ACGG", "", "TGCA", "AACG", "", "ACCG", "GCA"]);
    let triple = shape(profile, &[(1, 0), (1, 1), (1, 0)], 3);
    for quorum in [1, 3] {
        let (set, value) = (shares.clone(), triple.with_quorum(quorum));
        requests.extend(relay(set, value, 60, Grants::Few, ALL, random));
    }
    // As many occurrences as there can be, almost 2 to the 56th: in one
    // sequence, and in two that others stand between.
    let run = |length: usize| vec![b'A'; length];
    let widest = match profile {
        Profile::Exact => Value::widest(),
        Profile::Mixed => Value::widest().mixed(&[0, 0, 0, 0, 0, 1]),
    };
    for sequences in [
        vec![run(65_536)],
        vec![run(30_000), Vec::new(), vec![b'C'; 536], run(35_000)],
    ] {
        let (set, value) = (Set::of(&sequences), widest.with_quorum(1));
        requests.extend(relay(set, value, 2, Grants::Few, ALL, random));
    }
    requests
}

/// Random sets and templates; of mixed ones some with other allowances in the
/// exact profile, too.
fn any(profile: Profile, random: &mut Random) -> Vec<Request> {
    let (rounds, legs) = match profile {
        Profile::Exact => (40, 25),
        Profile::Mixed => (60, 12),
    };
    let mut requests = Vec::new();
    for round in 0..rounds {
        let (alphabet, longest) = (random.within(2, 4), random.pick(&[10, 30, 80]));
        let set = random.set(8, longest, alphabet);
        let (most, widest) = (random.within(1, 6), random.pick(&[0, 2, 10, 255]));
        let quorum = random.within(1, set.lengths.len() as u64);
        let value = random.template(most, widest).with_quorum(quorum);
        let grants = if round % 2 == 0 {
            Grants::Few
        } else {
            Grants::Any
        };
        if profile == Profile::Mixed && round % 6 == 0 {
            let (set, value) = (set.clone(), exact(value, random));
            requests.extend(relay(set, value, 10, grants, ALL, random));
        }
        let allowance = [1, 1, 2, 12][round % 4];
        let value = random.in_profile(profile, value, allowance);
        let most = enough(profile);
        requests.extend(relay(set, value, legs, grants, most, random));
    }
    requests
}

pub fn requests(profile: Profile, random: &mut Random) -> Vec<Request> {
    let mut requests = Vec::new();
    for quorum in 1..=4 {
        for value in small(profile) {
            let value = value.with_quorum(quorum);
            requests.extend(relay(Set::e(), value, 30, Grants::Single, ALL, random));
            requests.extend(relay(Set::e(), value, 200, Grants::Few, ALL, random));
        }
        if profile == Profile::Mixed {
            let value = exact(Value::pair().with_quorum(quorum), random);
            requests.extend(relay(Set::e(), value, 60, Grants::Few, ALL, random));
        }
    }
    for quorum in [2, 3] {
        let value = worked_example(profile).with_quorum(quorum);
        let (set, most) = (Set::worked_example(), enough(profile));
        requests.extend(relay(set, value, 60, Grants::Few, most, random));
    }
    requests.extend(deep(profile, random));
    requests.extend(few_and_many(profile, random));
    requests.extend(any(profile, random));
    requests.extend(weights(profile, random));
    requests.extend(last_of_all(profile, random));
    requests
}
