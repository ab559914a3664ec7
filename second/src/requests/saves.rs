//! Saves into buffers of any length, and restores: of saves that are whole,
//! changed in a few bytes, or made over other sequences, and of random bytes.

use super::alphabets::exact;
use super::begins::faulty_set;
use super::legs::{save_and_restore, underway};
use super::random::Random;
use super::request::{Kind, Request, Set, Slot, Value};
use crate::Profile;
use std::rc::Rc;

pub fn restore(set: &Rc<Set>, saved: Vec<u8>) -> Request {
    Request {
        saved,
        ..Request::new(Kind::Restore, set, Value::default())
    }
}

/// The bytes of a search's save.
pub fn saved(set: &Rc<Set>, value: Value, random: &mut Random) -> Vec<u8> {
    let [_, restore] = save_and_restore(set, value, random);
    restore.saved
}

/// Searches of one to six components at their first place, on their way and
/// ended, into buffers just short and just long enough, and restored. Of mixed
/// ones some are exact, with allowances that are not saved.
pub fn saves(profile: Profile, random: &mut Random) -> Vec<Request> {
    let (rounds, letters) = match profile {
        Profile::Exact => (120, 10),
        Profile::Mixed => (160, 12),
    };
    let mut requests = Vec::new();
    for round in 0..rounds {
        let set = Rc::new(random.set(6, 30, 3));
        let most = random.within(1, letters);
        let value = random.template(most, 5);
        let value = random.in_profile(profile, value, [1, 2, 12][round % 3]);
        let quorum = random.within(1, set.lengths.len() as u64);
        let Some(mut value) = underway(&set, value.with_quorum(quorum), random) else {
            continue;
        };
        if profile == Profile::Mixed && round % 8 == 0 {
            value = first_letter(exact(value, random));
        }
        let length = 16 * (usize::from(value.count) + 2);
        for room in [0, 1, 16, length - 16, length - 1, length, length + 1, 1_024] {
            requests.push(Request {
                saved: random.bytes(room),
                ..Request::new(Kind::Save, &set, value)
            });
        }
        requests.extend(save_and_restore(&set, value, random));
    }
    requests
}

/// The value at a place of one letter, if it was at one in base 16: the exact
/// profile reads it in base 4.
pub fn first_letter(value: Value) -> Value {
    Value {
        place: value.place.min(1),
        number: value.number % 4,
        ..value
    }
}

/// A byte of a save that names something, or any; of a mixed one rather often
/// the profile or an allowance.
fn a_byte(profile: Profile, bytes: &[u8], random: &mut Random) -> usize {
    let record = 16 * random.below(bytes.len() as u64 / 16) as usize;
    let named = random.pick(&[0, 1, 2, 3, 4, 5, 6, 7, 8, 9, 10, 11, 15]);
    if random.once_in(4) {
        random.below(bytes.len() as u64) as usize
    } else if profile == Profile::Mixed && random.once_in(3) {
        random.pick(&[12, record + 3])
    } else {
        record + named
    }
}

/// Saves changed at one to three places, with small numbers as often as not,
/// records left out or added, saves cut and over other sequences, and random
/// bytes.
pub fn restores(profile: Profile, random: &mut Random) -> Vec<Request> {
    let (deepest, small) = match profile {
        Profile::Exact => (32, 14),
        Profile::Mixed => (16, 18),
    };
    let mut requests = Vec::new();
    while requests.len() < 15_000 {
        let set = Rc::new(random.set(5, 25, 3));
        let most = random.pick(&[2, 6, deepest]);
        let value = random.template(most, 6);
        let value = random.in_profile(profile, value, 3);
        let quorum = random.within(1, set.lengths.len() as u64);
        let Some(value) = underway(&set, value.with_quorum(quorum), random) else {
            continue;
        };
        let bytes = saved(&set, value, random);
        for _ in 0..6 {
            let mut changed = bytes.clone();
            for _ in 0..random.within(1, 3) {
                let at = a_byte(profile, &changed, random);
                changed[at] = if random.once_in(2) {
                    random.below(small) as u8
                } else {
                    random.any() as u8
                };
            }
            requests.push(restore(&set, changed));
        }
        if profile == Profile::Mixed {
            let cut = random.below(bytes.len() as u64) as usize;
            requests.push(restore(&set, bytes[..cut].to_vec()));
        }
        // A record more or fewer, with the count that says so or not, and
        // with K changed so that it is the sum of lengths.
        let slot = Slot::new(random.below(14) as u16, 0, random.below(300) as u16);
        let mut more = bytes.clone();
        let records = bytes.len() / 16;
        let mut added = vec![0; 16];
        added[..8].copy_from_slice(&[
            2,
            records as u8 - 1,
            slot.length as u8,
            0,
            0,
            0,
            slot.high as u8,
            (slot.high / 256) as u8,
        ]);
        more.splice(bytes.len() - 16..bytes.len() - 16, added);
        requests.push(restore(&set, more.clone()));
        more[1] += 1;
        requests.push(restore(&set, more.clone()));
        more[6] += slot.length as u8;
        requests.push(restore(&set, more));
        let mut fewer = bytes.clone();
        fewer.drain(16..32);
        fewer[1] -= 1;
        requests.push(restore(&set, fewer));
        // Other sequences: of other counts, of the same, and with a fault.
        requests.push(restore(&Rc::new(random.set(5, 25, 3)), bytes.clone()));
        let lengths = set.lengths.clone();
        let letters = random.letters(set.letters.len() as u64, 2);
        requests.push(restore(&Rc::new(Set { letters, lengths }), bytes.clone()));
        requests.push(restore(&Rc::new(faulty_set(random)), bytes));
        // Random bytes, of a length that is a number of records or not.
        let length = random.pick(&[0, 15, 16, 32, 48, 64, 128, 144, 160, 1_024]);
        let mut bytes = random.bytes(length);
        if random.once_in(2) && length > 16 {
            bytes[1] = (length / 16) as u8;
        }
        requests.push(restore(&set, bytes));
    }
    requests
}
