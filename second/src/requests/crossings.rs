//! Legs, saves and recoveries of motifs that stand across the end of a word of 64
//! letters, or would, if their sequence did not end there.

use super::alphabets::{shape, spelled, word, Parts};
use super::legs::{enough, leg, relay, Grants};
use super::random::Random;
use super::request::{Kind, Request, Set, Value};
use super::words::{plant, template, GAPS};
use crate::Profile;
use std::rc::Rc;

/// A template of these parts, with gaps about as wide as a word or two.
fn with_gaps(profile: Profile, parts: Parts, random: &mut Random) -> Value {
    let lengths: Vec<u16> = parts.iter().map(|(length, _)| *length).collect();
    let value = template(&lengths, &GAPS, random);
    let allowances: Vec<u16> = parts.iter().map(|(_, allowance)| *allowance).collect();
    match profile {
        Profile::Exact => value,
        Profile::Mixed => value.mixed(&allowances),
    }
}

/// Components of many letters, across the end of a word after each of them. Two
/// times they cross the end of their sequence instead, to go on at its own
/// start or in the next one, where the motif does not stand; 11 sequences have
/// it. As a place it is a candidate for that quorum, and hardly for one more.
pub fn long_components(profile: Profile, random: &mut Random) -> Vec<Request> {
    let exact: [Parts; 8] = [
        &[(7, 0)],
        &[(9, 0)],
        &[(12, 0)],
        &[(5, 0), (6, 0)],
        &[(11, 0), (10, 0)],
        &[(12, 0), (12, 0), (8, 0)],
        &[(8, 0), (8, 0), (8, 0), (8, 0)],
        &[(5, 0), (5, 0), (5, 0), (5, 0), (6, 0), (6, 0)],
    ];
    let mixed: [Parts; 6] = [
        &[(7, 2)],
        &[(12, 3)],
        &[(12, 1), (4, 1)],
        &[(5, 2), (6, 0), (5, 1)],
        &[(4, 1), (4, 1), (4, 1), (4, 1)],
        &[(3, 0), (3, 1), (3, 1), (3, 0), (2, 1), (2, 2)],
    ];
    let shapes = match profile {
        Profile::Exact => &exact[..],
        Profile::Mixed => &mixed,
    };
    let mut requests = Vec::new();
    for parts in shapes.repeat(2) {
        let value = with_gaps(profile, parts, random);
        let word = word(&value, random);
        let mut sequences = Vec::new();
        for before_end in 0..=12 {
            let end = 64 * random.within(1, 2);
            let mut sequence = random.letters(end - before_end, 4);
            let motif = spelled(&word, random);
            plant(&mut sequence, &motif, &value, 4, random);
            let after = (sequence.len() as u64).wrapping_neg() % 64;
            sequence.extend(random.letters(after, 4));
            match before_end {
                4 => sequence.rotate_left(end as usize),
                5 => sequences.push(sequence.drain(..end as usize).collect()),
                _ => {}
            }
            sequences.push(sequence);
        }
        let set = Rc::new(Set::of(&sequences));
        let mut value = value.over(&set).at(&word);
        for quorum in [14, 12, 11, 10] {
            value.quorum = quorum;
            requests.push(leg(&set, value, 15, [3; 3], random));
            requests.push(Request {
                saved: random.bytes(128),
                ..Request::new(Kind::Save, &set, value)
            });
        }
        // Its occurrences, too.
        requests.push(Request {
            motif: value.number,
            rows: random.narrow(40 * (parts.len() + 1)),
            ..Request::new(Kind::Recover, &set, value)
        });
        let (set, value) = (Set::of(&sequences), value.with_quorum(11));
        let most = enough(profile);
        requests.extend(relay(set, value, 4, Grants::Any, most, random));
    }
    requests
}

/// Sequences of 64 letters, with a component of many letters at their end, of
/// which up to five are cut off: behind a word that is full nothing stands. From
/// the first place on, and from places of all of its letters, or all but a few.
pub fn cut_off(profile: Profile, random: &mut Random) -> Vec<Request> {
    let shapes: [Parts; 7] = [
        &[(5, 1)],
        &[(8, 1)],
        &[(12, 2)],
        &[(2, 0), (6, 1)],
        &[(1, 1), (9, 2)],
        &[(3, 1), (12, 1)],
        &[(4, 0), (12, 3)],
    ];
    let mut requests = Vec::new();
    for parts in shapes {
        let value = shape(profile, parts, 30);
        let word = word(&value, random);
        let mut sequences = Vec::new();
        for end in 64..70 {
            let mut sequence = Vec::new();
            let motif = spelled(&word, random);
            plant(&mut sequence, &motif, &value, 4, random);
            let before = random.letters(end - sequence.len() as u64, 4);
            sequence.splice(..0, before);
            sequence.truncate(64);
            sequences.push(sequence);
        }
        for quorum in [1, 2] {
            let (set, value) = (Set::of(&sequences), value.with_quorum(quorum));
            let most = enough(profile);
            requests.extend(relay(set, value, 3, Grants::Any, most, random));
        }
        let set = Rc::new(Set::of(&sequences));
        for letters in [word.len(), word.len() - 1, word.len() - 4] {
            let value = value.over(&set).at(&word[..letters]);
            for quorum in 1..=6 {
                let value = value.with_quorum(quorum);
                requests.push(leg(&set, value, 20, [9; 3], random));
            }
        }
    }
    requests
}

/// Each letter alone, behind a gap, and before one, at the first and the last
/// letters of each word: a run of one letter with another planted there.
pub fn each_letter(profile: Profile, random: &mut Random) -> Vec<Request> {
    let mut requests = Vec::new();
    for (base, other) in [(b'A', b'C'), (b'C', b'G'), (b'G', b'T'), (b'T', b'A')] {
        for parts in [&[(1, 1)][..], &[(1, 0), (1, 1)], &[(1, 1), (1, 0)]] {
            let mut sequence = vec![base; random.pick(&[191, 192, 193, 200]) as usize];
            for at in [0, 63, 64, 65, 127, 128, 190] {
                if random.once_in(2) {
                    sequence[at] = other;
                }
            }
            let set = Set::of(&[sequence, vec![base; 64]]);
            let value = shape(profile, parts, 63).with_quorum(random.within(1, 2));
            let most = enough(profile);
            requests.extend(relay(set, value, 3, Grants::Few, most, random));
        }
    }
    requests
}
