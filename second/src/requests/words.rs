//! Legs where words of 64 end, in both profiles: a program may keep 64 letters of
//! a sequence, or marks of 64 sequences, in one word, make the words of a mixed
//! letter of those of its bases, and pass over sixteen words at once. A motif that
//! is lost or found twice at such an end shows in its weighted support, and one
//! that stands nowhere else in its support.

use super::alphabets::{spelled, word};
use super::crossings;
use super::legs::{enough, relay, Grants, Most, ALL};
use super::random::Random;
use super::request::{Request, Set, Slot, Value};
use crate::Profile;

/// Lengths of sequences about the ends of one to four words.
const LENGTHS: [u64; 16] = [
    63, 64, 65, 66, 127, 128, 129, 130, 191, 192, 193, 194, 255, 256, 257, 258,
];

/// Gap ranges that lead, or reach, about as far as a word or two.
pub const GAPS: [(u16, u16); 12] = [
    (0, 1),
    (0, 62),
    (0, 63),
    (1, 64),
    (60, 66),
    (63, 63),
    (64, 64),
    (0, 127),
    (2, 129),
    (64, 127),
    (126, 129),
    (128, 128),
];

/// A template of these lengths, with one of these ranges before each component
/// but the first.
pub fn template(lengths: &[u16], gaps: &[(u16, u16)], random: &mut Random) -> Value {
    let mut slots = vec![Slot::new(lengths[0], 0, 0)];
    for length in &lengths[1..] {
        let (low, high) = random.pick(gaps);
        slots.push(Slot::new(*length, low, high));
    }
    Value::of(&slots)
}

/// Adds a motif to a sequence. Each gap is the least, the most, or one that
/// brings the component behind it to the end of a word, if one does.
pub fn plant(
    sequence: &mut Vec<u8>,
    motif: &[u8],
    value: &Value,
    alphabet: u64,
    random: &mut Random,
) {
    let mut letters = motif.iter();
    for slot in &value.slots[..value.count.into()] {
        let (low, high) = (u64::from(slot.low), u64::from(slot.high));
        let before_end = random.within(0, slot.length.into());
        let nearest = sequence.len() as u64 + low + before_end;
        let at_end = high.min(low + nearest.wrapping_neg() % 64);
        let gap = random.pick(&[low, high, at_end, at_end]);
        sequence.extend(random.letters(gap, alphabet));
        sequence.extend(letters.by_ref().take(slot.length.into()));
    }
}

/// What is enough where each step takes long, since the set is large.
fn enough_of_many(profile: Profile) -> Most {
    match profile {
        Profile::Exact => ALL,
        Profile::Mixed => (300, 99),
    }
}

/// Random letters in sequences that end about where words do.
fn across(profile: Profile, random: &mut Random) -> Vec<Request> {
    let shapes: [&[u16]; 8] = [
        &[6],
        &[8],
        &[1, 1],
        &[1, 3],
        &[3, 2],
        &[1, 6],
        &[2, 1, 1],
        &[1, 1, 1, 1],
    ];
    let mut requests = Vec::new();
    for round in 0..32 {
        let alphabet = random.pick(&match profile {
            Profile::Exact => [2, 2, 3],
            Profile::Mixed => [2, 3, 4],
        });
        let mut sequences = vec![random.letters(LENGTHS[round % 16], alphabet)];
        for _ in 0..random.below(4) {
            let length = random.pick(&LENGTHS);
            sequences.push(random.letters(length, alphabet));
        }
        let lengths = random.pick(&shapes);
        let quorum = random.within(1, sequences.len() as u64);
        let value = template(lengths, &GAPS, random).with_quorum(quorum);
        let value = random.in_profile(profile, value, 2);
        let grants = random.pick(&[Grants::Few, Grants::Any]);
        let (set, most) = (Set::of(&sequences), enough(profile));
        requests.extend(relay(set, value, 5, grants, most, random));
    }
    requests
}

/// Occurrences from the first letter of a sequence to its last; and over the
/// widest gaps to the last letter of each sequence but one, whose last letter
/// is the first of the next.
fn farthest(profile: Profile, random: &mut Random) -> Vec<Request> {
    let most = enough(profile);
    let mut requests = Vec::new();
    for length in LENGTHS {
        let gap = length as u16 - 3;
        let value = template(&[2, 1], &[(gap, gap)], random).with_quorum(1);
        let value = random.in_profile(profile, value, 1);
        let sequences = [length, length - 1, length + 1].map(|length| random.letters(length, 2));
        let set = Set::of(&sequences);
        requests.extend(relay(set, value, 2, Grants::Any, most, random));
    }
    let last: &[u16] = match profile {
        Profile::Exact => &[4, 12, 12],
        Profile::Mixed => &[2, 12, 2],
    };
    let shapes: [(&[u16], (u16, u16)); 6] = [
        (&[1, 1], (255, 255)),
        (&[2, 2], (0, 255)),
        (&[12, 4], (254, 255)),
        (&[1; 6], (255, 255)),
        (&[1, 1, 1], (0, 255)),
        (last, (255, 255)),
    ];
    for (lengths, gap) in shapes {
        for (alphabet, quorum) in [(1, 4), (2, 4), (2, 5)] {
            let value = template(lengths, &[gap], random).with_quorum(quorum);
            let value = random.in_profile(profile, value, 1);
            let word = word(&value, random);
            let mut sequences = Vec::new();
            for before in [0, 1, 62, 63, 64] {
                let mut sequence = random.letters(before, alphabet);
                let motif = spelled(&word, random);
                plant(&mut sequence, &motif, &value, alphabet, random);
                sequences.push(sequence);
            }
            let last = sequences[2].pop();
            sequences[3].splice(..0, last);
            let set = Set::of(&sequences);
            requests.extend(relay(set, value, 3, Grants::Any, most, random));
        }
    }
    requests
}

/// A motif of three letters, which each sequence spells as it likes.
fn motif(profile: Profile) -> &'static [u8] {
    match profile {
        Profile::Exact => b"CGT",
        Profile::Mixed => b"MGY",
    }
}

/// As many sequences as marks fill words, or one more or fewer. Some lack the
/// motif, the last of them at each end of a word, and the quorum is what is
/// reached, or one more or fewer: a candidate can be given up there, and not
/// before.
fn marks(profile: Profile, random: &mut Random) -> Vec<Request> {
    let value = template(&[1, 2], &[(0, 1)], random);
    let most = enough_of_many(profile);
    let mut requests = Vec::new();
    for number in [63, 64, 65, 127, 128, 129, 1_023, 1_024] {
        for last in [0, 63, 64, number / 2, number - 1] {
            let (mut reached, mut sequences) = (number, Vec::new());
            for at in 0..number {
                let before = random.below(4);
                let mut sequence = random.letters(before, 2);
                let motif = spelled(motif(profile), random);
                plant(&mut sequence, &motif, &value, 1, random);
                if at == last || at < last && random.once_in(5) {
                    sequence.pop();
                    reached -= 1;
                }
                sequences.push(sequence);
            }
            let quorum = random.within(reached - 1, number.min(reached + 1));
            let value = random.in_profile(profile, value.with_quorum(quorum), 1);
            let set = Set::of(&sequences);
            requests.extend(relay(set, value, 2, Grants::Few, most, random));
        }
    }
    requests
}

/// As many words as sequences, though not each sequence has one: for some that
/// have two, as many have no letter.
fn uneven(profile: Profile, random: &mut Random) -> Vec<Request> {
    let mut requests = Vec::new();
    for number in [2, 3, 5, 63, 64, 66, 129] {
        for _ in 0..3 {
            let mut sequences = Vec::new();
            while sequences.len() + 1 < number {
                let length = random.within(1, 64);
                sequences.push(random.letters(length, 3));
                if sequences.len() + 2 > number || random.once_in(4) {
                    sequences.pop();
                    let length = random.within(65, 128);
                    let at = random.below(sequences.len() as u64 + 1) as usize;
                    sequences.insert(at, Vec::new());
                    sequences.push(random.letters(length, 3));
                }
            }
            let value = template(&[2, 1], &GAPS, random);
            let quorum = random.within(1, (number as u64).div_ceil(4));
            let value = random.in_profile(profile, value.with_quorum(quorum), 2);
            let (set, most) = (Set::of(&sequences), enough_of_many(profile));
            requests.extend(relay(set, value, 3, Grants::Any, most, random));
        }
    }
    requests
}

/// A long run of one letter, with a motif about the ends of sixteen words, and
/// a short run before it.
fn sparse(profile: Profile, random: &mut Random) -> Vec<Request> {
    let shapes: [&[u16]; 4] = [&[3], &[2, 1], &[1, 2], &[1, 1, 1]];
    let mut requests = Vec::new();
    let runs = [
        1_023, 1_024, 1_025, 1_088, 2_047, 2_048, 2_049, 2_112, 3_072, 3_073, 65_000,
    ];
    for length in runs.repeat(2) {
        let lengths = random.pick(&shapes);
        let value = template(lengths, &GAPS, random).with_quorum(1);
        let value = random.in_profile(profile, value, 1);
        let mut long = Vec::new();
        for word in [15, 16, 17, 31, 32, 47, 48, 1_015] {
            let at = 64 * word + random.pick(&[0, 1, 61, 62, 63]);
            if at < length && at >= long.len() && !random.once_in(3) {
                long.resize(at, b'A');
                let motif = spelled(motif(profile), random);
                plant(&mut long, &motif, &value, 1, random);
            }
        }
        long.resize(length, b'A');
        let before = random.below(70);
        let set = Set::of(&[random.letters(before, 1), long]);
        let most = enough_of_many(profile);
        requests.extend(relay(set, value, 4, Grants::Any, most, random));
    }
    requests
}

pub fn requests(profile: Profile, random: &mut Random) -> Vec<Request> {
    let parts: [fn(Profile, &mut Random) -> Vec<Request>; 8] = [
        across,
        farthest,
        marks,
        uneven,
        sparse,
        crossings::long_components,
        crossings::cut_off,
        crossings::each_letter,
    ];
    let requests = parts.iter().flat_map(|part| part(profile, random));
    requests.collect()
}
