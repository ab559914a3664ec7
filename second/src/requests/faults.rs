//! Restores of saves with several faults at once, in both profiles, so that the
//! order of the refusals shows, and the record that is told.

use super::damaged::damageable;
use super::random::Random;
use super::request::Request;
use super::saves::restore;
use crate::Profile;

/// Something wrong with a save; a record is told by its number from 0.
#[derive(Clone, Copy)]
enum Fault {
    Kind(usize),
    Number(usize),
    /// A profile that there is not.
    Profile,
    /// The exact profile for a mixed one, in which an allowance has to be 0.
    Exact,
    Unnamed(usize),
    Sum,
    PlaceLetters,
    PlaceNumber,
    PlaceDigit,
    PlaceMixed,
    /// A component's length, with K as it has to be then.
    Length(usize),
    /// All lengths 12, with K as it has to be then: too many letters from three
    /// components on, and in the mixed profile from two.
    Lengths,
    /// The last length more by one, with K as it has to be then.
    LongerByOne,
    Range(usize),
    Allowance(usize),
    Counts,
    Quorum,
    Candidate,
}

/// Every fault of a save of so many components; a length, a range and an
/// allowance are each wrong in the first and in the last.
fn faults(profile: Profile, components: usize) -> Vec<Fault> {
    let records = 0..components + 2;
    let mut faults: Vec<Fault> = records.clone().map(Fault::Kind).collect();
    faults.extend((1..=components).map(Fault::Number));
    faults.extend(records.map(Fault::Unnamed));
    faults.extend([Fault::Sum, Fault::PlaceLetters, Fault::PlaceNumber]);
    faults.extend([Fault::Length(1), Fault::Length(components)]);
    faults.extend([Fault::Lengths, Fault::Range(1), Fault::Range(components)]);
    faults.extend([Fault::Counts, Fault::Quorum, Fault::Candidate]);
    if profile == Profile::Mixed {
        faults.extend([Fault::Profile, Fault::Exact, Fault::LongerByOne]);
        faults.extend([Fault::PlaceDigit, Fault::PlaceMixed]);
        faults.extend([Fault::Allowance(1), Fault::Allowance(components)]);
    }
    faults
}

/// Another value for a byte.
fn change(byte: &mut u8, random: &mut Random) {
    let any = random.within(1, 255) as u8;
    *byte ^= random.pick(&[1, 2, 3, 128, any]);
}

/// The bytes of a record that must be 0; in the exact profile the size record's
/// byte for the profile is among them.
fn unnamed(profile: Profile, record: usize, records: usize) -> Vec<usize> {
    match (profile, record) {
        (Profile::Exact, 0) => (12..16).collect(),
        (Profile::Mixed, 0) => (13..16).collect(),
        _ if record == records - 1 => (2..8).collect(),
        (Profile::Exact, _) => [3].into_iter().chain(8..16).collect(),
        (Profile::Mixed, _) => (8..16).collect(),
    }
}

/// Puts another place into a save.
fn put_place(bytes: &mut [u8], letters: u8, number: u64) {
    let place = bytes.len() - 16;
    bytes[place + 1] = letters;
    bytes[place + 8..].copy_from_slice(&number.to_le_bytes());
}

/// Makes K the sum of the lengths.
fn put_sum(bytes: &mut [u8]) {
    let components = bytes.len() / 16 - 2;
    let sum: u16 = (1..=components)
        .map(|record| u16::from(bytes[16 * record + 2]))
        .sum();
    bytes[6..8].copy_from_slice(&sum.to_le_bytes());
}

impl Fault {
    /// Puts the fault into a save of the profile.
    fn put(self, profile: Profile, bytes: &mut [u8], random: &mut Random) {
        let records = bytes.len() / 16;
        let place = bytes.len() - 16;
        match self {
            Fault::Kind(record) => change(&mut bytes[16 * record], random),
            Fault::Number(record) => change(&mut bytes[16 * record + 1], random),
            Fault::Profile => bytes[12] = random.pick(&[2, 3, 128, 255]),
            Fault::Exact => bytes[12] = 0,
            Fault::Unnamed(record) => {
                let at = random.pick(&unnamed(profile, record, records));
                change(&mut bytes[16 * record + at], random);
            }
            Fault::Sum => change(&mut bytes[random.pick(&[6, 6, 7])], random),
            Fault::PlaceLetters => {
                bytes[place + 1] = random.pick(&match profile {
                    Profile::Exact => [33, 34, 255],
                    Profile::Mixed => [17, 33, 255],
                });
            }
            Fault::PlaceNumber => {
                bytes[place + 1] = random.pick(&match profile {
                    Profile::Exact => [0, 1, 31],
                    Profile::Mixed => [0, 1, 15],
                });
                bytes[place + 15] |= 64;
            }
            Fault::PlaceDigit => {
                let digit = random.pick(&[14, 15]) << (4 * random.below(5));
                put_place(bytes, 5, digit);
            }
            // Twelve mixed letters are too many for each of these templates.
            Fault::PlaceMixed => put_place(bytes, 12, 0x4444_4444_4444),
            Fault::Length(record) => {
                bytes[16 * record + 2] = random.pick(&[0, 13, 14]);
                put_sum(bytes);
            }
            Fault::Lengths => {
                for record in 1..records - 1 {
                    bytes[16 * record + 2] = 12;
                }
                put_sum(bytes);
            }
            Fault::LongerByOne => {
                bytes[place - 16 + 2] += 1;
                put_sum(bytes);
            }
            Fault::Range(record) => bytes[16 * record + random.pick(&[5, 7])] = 1,
            Fault::Allowance(record) => bytes[16 * record + 3] = random.pick(&[15, 100, 255]),
            Fault::Counts => change(&mut bytes[random.pick(&[4, 5, 8, 9, 10, 11])], random),
            Fault::Quorum => bytes[2] = random.pick(&[0, 3, 255]),
            // Single letters, which are allowed everywhere.
            Fault::Candidate => {
                let letters = random.below(1 << 24);
                let digits = (0..12).map(|at| letters >> (2 * at) & 3);
                let number = digits
                    .rev()
                    .fold(0, |number, digit| number * profile.base() + digit);
                put_place(bytes, 12, number);
            }
        }
    }
}

/// Changes of two or three records in one byte each.
fn several_bytes(bytes: &[u8], random: &mut Random) -> Vec<u8> {
    let mut changed = bytes.to_vec();
    let records = bytes.len() as u64 / 16;
    let first = random.below(records);
    for next in 0..random.within(2, 3) {
        let record = (first + next) % records;
        let (byte, value) = (random.below(16), random.any() as u8);
        let at = 16 * record + random.pick(&[0, 0, 1, 1, 2, 6, byte]);
        changed[at as usize] = random.pick(&[0, 1, 2, 3, value]);
    }
    changed
}

/// Every two and every three of the faults.
fn together(faults: &[Fault]) -> Vec<Vec<Fault>> {
    let mut together = Vec::new();
    for (at, one) in faults.iter().enumerate() {
        for (at, two) in faults.iter().enumerate().skip(at + 1) {
            together.push(vec![*one, *two]);
            together.extend(
                faults[at + 1..]
                    .iter()
                    .map(|three| vec![*one, *two, *three]),
            );
        }
    }
    together
}

/// Saves with every two and every three of the faults, and saves changed in
/// two or three records.
pub fn several_faults(profile: Profile, random: &mut Random) -> Vec<Request> {
    let mut requests = Vec::new();
    for components in 1..=6 {
        let (set, saves) = damageable(profile, components, random);
        for faults in together(&faults(profile, components)) {
            let mut changed = saves[random.below(4) as usize].clone();
            for fault in faults {
                fault.put(profile, &mut changed, random);
            }
            requests.push(restore(&set, changed));
        }
        for bytes in &saves {
            for _ in 0..400 {
                requests.push(restore(&set, several_bytes(bytes, random)));
            }
        }
    }
    requests
}
