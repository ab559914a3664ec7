//! New searches: each limit from both sides, several faults at once, and
//! searches that are begun.

use super::alphabets::any_allowance;
use super::random::Random;
use super::request::{Kind, Request, Set, Slot, Value};
use crate::Profile;
use std::rc::Rc;

fn begin(set: Set, value: Value) -> Request {
    Request::new(Kind::Begin, &Rc::new(set), value)
}

/// One sequence of so many letters.
fn one_sequence(letters: usize) -> Set {
    Set::of(&[vec![b'G'; letters]])
}

/// Each limit of the sequences from both sides, and every byte.
fn sets() -> Vec<Request> {
    let value = Value::pair().with_quorum(1);
    let mut requests = Vec::new();
    for sequences in [0, 1, 2, 1_023, 1_024, 1_025, 1_100] {
        requests.push(begin(Set::of(&vec![""; sequences]), value));
    }
    for letters in [0, 1, 65_535, 65_536, 65_537, 66_000] {
        requests.push(begin(one_sequence(letters), value));
    }
    // Sums that miss by one, and sums that would fit if they wrapped.
    for lengths in [
        vec![5, 5, 2],
        vec![5, 5, 1],
        vec![5, 5, 3],
        vec![u32::MAX, 1, 12],
        vec![u32::MAX, u32::MAX, 14],
        vec![1 << 31, 1 << 31, 12],
        vec![u32::MAX; 1_024],
    ] {
        let letters = Set::e().letters;
        requests.push(begin(Set { letters, lengths }, value));
    }
    for byte in 0..=u8::MAX {
        for at in [0, 4, 11] {
            let mut set = Set::e();
            set.letters[at] = byte;
            requests.push(begin(set, value));
        }
    }
    // Where many bytes may be looked at together: a byte at every place, and
    // every byte.
    let spoilt = |at: usize, byte: u8| {
        let mut set = one_sequence(200);
        set.letters[at] = byte;
        begin(set, value)
    };
    requests.extend((0..200).map(|at| spoilt(at, b'N')));
    requests.extend((0..=u8::MAX).map(|byte| spoilt(131, byte)));
    // The first of several is told.
    let mut set = one_sequence(65_536);
    set.letters[65_535] = b'N';
    requests.push(begin(set.clone(), value));
    set.letters[40_000] = b'a';
    requests.push(begin(set, value));
    requests
}

/// Each limit of the template and of the quorum, in every slot, both where
/// the template counts the slot and where it does not.
fn values() -> Vec<Request> {
    let lengths = [0, 1, 2, 11, 12, 13, 255, 256, 268, 65_535];
    let bounds = [0, 1, 254, 255, 256, 65_535];
    let six = Value::of(&[Slot::new(1, 0, 0); 6]).with_quorum(2);
    let mut values = Vec::new();
    for count in [0, 1, 2, 3, 4, 5, 6, 7, 8, 255, 256, 257, 65_535] {
        values.push(Value { count, ..six });
    }
    for count in [3, 6] {
        for at in 0..6 {
            let mut value = Value { count, ..six };
            for length in lengths {
                value.slots[at] = Slot::new(length, 0, 0);
                values.push(value);
            }
            for low in bounds {
                for high in bounds {
                    value.slots[at] = Slot::new(1, low, high);
                    values.push(value);
                }
            }
        }
    }
    for (a, b, c) in [
        (12, 12, 8),
        (12, 12, 9),
        (12, 8, 12),
        (8, 12, 12),
        (12, 12, 12),
    ] {
        let slots = [a, b, c].map(|length| Slot::new(length, 0, 0));
        values.push(Value::of(&slots).with_quorum(2));
    }
    for last in [7, 8] {
        let slots = [5, 5, 5, 5, 5, last].map(|length| Slot::new(length, 0, 0));
        values.push(Value::of(&slots).with_quorum(2));
    }
    for quorum in [
        0,
        1,
        2,
        3,
        4,
        1_024,
        65_536,
        65_537,
        1 << 32,
        (1 << 32) + 1,
        u64::MAX,
    ] {
        values.push(Value::pair().with_quorum(quorum));
    }
    values
        .into_iter()
        .map(|value| begin(Set::e(), value))
        .collect()
}

/// A set with a fault in it, as often as not.
pub fn faulty_set(random: &mut Random) -> Set {
    let mut set = random.set(5, 30, 4);
    match random.below(10) {
        0 => set.lengths.push(random.edge() as u32),
        1 => {
            let at = random.below(set.letters.len() as u64 + 1) as usize;
            set.letters.insert(at, random.any() as u8);
            set.lengths[0] += 1;
        }
        2 => set.letters.push(b'A'),
        3 => set.lengths.clear(),
        4 => set.lengths = vec![0; 1_025],
        5 => set.letters = vec![b'C'; 65_537],
        _ => {}
    }
    set
}

/// A search value with faults of its template, in the mixed profile also of its
/// allowances, and of its quorum, or none.
pub fn faulty_value(profile: Profile, random: &mut Random, set: &Set) -> Value {
    let most = random.pick(&[4, 12, 12, 48]);
    let mut value = random.template(most, 6);
    value.quorum = random.within(1, set.lengths.len().max(1) as u64);
    let faults = random.below(4);
    for _ in 0..faults {
        let at = random.below(6) as usize;
        match random.below(6) {
            0 => value.count = random.pick(&[0, 1, 6, 7, 300, 65_535]),
            1 => value.slots[at].length = random.pick(&[0, 1, 12, 13, 300]),
            2 => value.slots[at].low = random.pick(&[0, 1, 255, 256]),
            3 => value.slots[at].high = random.pick(&[0, 1, 255, 256]),
            4 => value.slots[at].length = random.edge() as u16,
            _ => value.quorum = random.edge(),
        }
    }
    value = random.in_profile(profile, value, 3);
    if profile == Profile::Mixed && random.once_in(3) {
        let at = random.below(6) as usize;
        value.slots[at].allowance = any_allowance(random);
    }
    value
}

pub fn requests(random: &mut Random) -> Vec<Request> {
    let mut requests = sets();
    requests.extend(values());
    for _ in 0..6_000 {
        let set = faulty_set(random);
        let value = faulty_value(Profile::Exact, random, &set);
        requests.push(begin(set, value));
    }
    requests
}
