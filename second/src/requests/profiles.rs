//! New searches, saves and recoveries that are passed a number for the profile
//! which is none's: it is refused after the sequences and the number of
//! components, and before all else.

use super::begins::{faulty_set, faulty_value};
use super::legs::underway;
use super::random::Random;
use super::request::{Kind, Request, Set, Slot, Value, MORE_THAN_A_SAVE};
use crate::Profile;
use std::rc::Rc;

const NUMBERS: [u16; 8] = [2, 3, 14, 16, 255, 256, 257, 65_535];

/// The three calls with that number for the profile. Whatever they write to has
/// room for it, or none.
fn each(set: &Rc<Set>, value: Value, number: u16, random: &mut Random) -> Vec<Request> {
    let mut requests = Vec::new();
    for kind in [Kind::Begin, Kind::Save, Kind::Recover] {
        let (bytes, rows) = random.pick(&[(0, 0), (MORE_THAN_A_SAVE, 24)]);
        requests.push(Request {
            saved: random.bytes(bytes),
            rows: random.narrow(rows),
            motif: random.pick(&[0, 2, 10, u64::MAX]),
            first_row: random.pick(&[0, u64::MAX]),
            no_profile: Some(number),
            ..Request::new(kind, set, value)
        });
    }
    requests
}

/// E's search on its way, with each fault that comes before the profile, each
/// that comes behind it, and one of either.
fn faults(random: &mut Random) -> Vec<Value> {
    let e = Rc::new(Set::e());
    let mut values = Vec::new();
    for profile in [Profile::Exact, Profile::Mixed] {
        let value = random.in_profile(profile, Value::pair(), 1).with_quorum(2);
        let right = underway(&e, value, random).expect("E's search");
        let with = |change: fn(&mut Value)| {
            let mut value = right;
            change(&mut value);
            value
        };
        let later = [
            right,
            with(|value| value.slots[0].length = 0),
            with(|value| value.slots[1].length = 13),
            with(|value| value.slots = [Slot::new(12, 0, 0); 6]),
            with(|value| value.slots[0].high = 1),
            with(|value| value.slots[1].high = 256),
            with(|value| value.slots[1].allowance = 65_535),
            with(|value| value.quorum = 0),
            with(|value| value.letters += 1),
            with(|value| value.place = 255),
            with(|value| value.number = u64::MAX),
        ];
        for count in [right.count, 0, 1, 6, 7, 8, 255, 256, 65_535] {
            values.extend(later.map(|value| Value { count, ..value }));
        }
    }
    values
}

/// E, and E with each fault of the sequences.
fn sets() -> Vec<Rc<Set>> {
    let mut spoilt = Set::e();
    spoilt.letters[11] = b'N';
    let mut longer = Set::e();
    longer.lengths[2] += 1;
    let sets = [
        Set::e(),
        Set::of(&[""; 0]),
        Set::of(&[""; 1_025]),
        Set::of(&[vec![b'N'; 65_537]]),
        longer,
        spoilt,
    ];
    sets.map(Rc::new).to_vec()
}

pub fn requests(random: &mut Random) -> Vec<Request> {
    let (values, sets) = (faults(random), sets());
    let mut requests = Vec::new();
    for number in NUMBERS {
        for value in &values {
            requests.extend(each(&sets[0], *value, number, random));
        }
        for set in &sets[1..] {
            for value in values.iter().step_by(7) {
                requests.extend(each(set, *value, number, random));
            }
        }
    }
    for _ in 0..1_500 {
        let set = Rc::new(faulty_set(random));
        let profile = random.pick(&[Profile::Exact, Profile::Mixed]);
        let value = faulty_value(profile, random, &set);
        let any = random.within(2, 65_535) as u16;
        requests.extend(each(&set, value, any, random));
    }
    requests
}
