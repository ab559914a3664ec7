//! New searches in the mixed profile: each limit of its own from both sides;
//! in the exact one with allowances, which it does not look at; and in both into
//! buffers of any length.

use super::alphabets::{exact, shape};
use super::begins::{faulty_set, faulty_value};
use super::random::Random;
use super::request::{Kind, Request, Set, Slot, Value};
use crate::Profile;
use std::rc::Rc;

fn begin(set: &Rc<Set>, value: Value) -> Request {
    Request::new(Kind::Begin, set, value)
}

/// Both profiles of a template: the same numbers in each.
fn both(value: Value) -> [Value; 2] {
    [Profile::Exact, Profile::Mixed].map(|profile| Value { profile, ..value })
}

/// Each allowance about each length, in every slot, both where the template
/// counts the slot and where it does not.
fn allowances() -> Vec<Value> {
    let mut values = Vec::new();
    for count in [1, 3, 6] {
        for at in 0..6 {
            for length in [1, 2, 11] {
                let mut value = Value {
                    count,
                    ..Value::of(&[Slot::new(1, 0, 0); 6]).with_quorum(2)
                };
                value.slots[at].length = length;
                let (below, above) = (length - 1, length + 1);
                for allowance in [0, below, length, above, 12, 13, 255, 256, 257, 65_535] {
                    value.slots[at].allowance = allowance;
                    values.extend(both(value));
                }
            }
        }
    }
    values
}

/// Lengths that add up to 16 and to 17, and to 32 and 33, with and without
/// another fault before and behind.
fn lengths() -> Vec<Value> {
    let mut values = Vec::new();
    for lengths in [
        &[12, 3][..],
        &[12, 4],
        &[12, 5],
        &[4, 12],
        &[5, 12],
        &[6, 5, 5],
        &[6, 6, 5],
        &[4, 4, 4, 4],
        &[3, 3, 3, 3, 2, 2],
        &[3, 3, 3, 3, 3, 2],
        &[1, 1, 1, 1, 1, 11],
        &[1, 1, 1, 1, 1, 12],
        &[12, 12, 8],
        &[12, 12, 9],
    ] {
        let parts: Vec<(u16, u16)> = lengths.iter().map(|length| (*length, 1)).collect();
        for value in both(shape(Profile::Mixed, &parts, 3).with_quorum(3)) {
            values.push(value);
            let mut wrong = value;
            wrong.slots[0].allowance = 13;
            values.push(wrong);
            wrong.slots[1].low = 4;
            values.push(wrong);
            wrong.slots[1].length = 0;
            values.push(wrong);
            values.push(value.with_quorum(4));
        }
    }
    values
}

/// One fault of the sequences: the template is then not looked at.
fn sets(random: &mut Random) -> Vec<Request> {
    let value = shape(Profile::Mixed, &[(1, 0), (1, 9)], 1).with_quorum(9);
    let mut sets = vec![
        Set::of(&[""; 0]),
        Set::of(&[""; 1_025]),
        Set::of(&[vec![b'A'; 65_537]]),
    ];
    for letter in Profile::Mixed.letters() {
        let mut set = Set::e();
        set.letters[random.below(12) as usize] = *letter;
        sets.push(set);
    }
    let mut set = Set::e();
    set.lengths[1] += 1;
    sets.push(set);
    sets.into_iter()
        .map(|set| begin(&Rc::new(set), value))
        .collect()
}

/// Searches of one to six components in either profile, into buffers just short
/// and just long enough; and ones that are refused, where there is no room too.
fn rooms(random: &mut Random) -> Vec<Request> {
    let e = Rc::new(Set::e());
    let mut requests = Vec::new();
    for components in 1..=6 {
        let length = 16 * (components + 2);
        let parts = vec![(1, 1); components];
        for value in both(shape(Profile::Mixed, &parts, 2)) {
            for room in [0, 1, 16, length - 16, length - 1, length, length + 1, 1_024] {
                for quorum in [0, 1, 3, 4] {
                    requests.push(Request {
                        saved: random.bytes(room),
                        ..begin(&e, value.with_quorum(quorum))
                    });
                }
            }
        }
    }
    requests
}

pub fn requests(random: &mut Random) -> Vec<Request> {
    let e = Rc::new(Set::e());
    let mut requests = sets(random);
    requests.extend(allowances().into_iter().map(|value| begin(&e, value)));
    requests.extend(lengths().into_iter().map(|value| begin(&e, value)));
    for _ in 0..3_000 {
        let set = Rc::new(faulty_set(random));
        let value = faulty_value(Profile::Mixed, random, &set);
        requests.push(begin(&set, value));
        if random.once_in(4) {
            requests.push(begin(&set, exact(value, random)));
        }
    }
    requests.extend(rooms(random));
    requests
}
