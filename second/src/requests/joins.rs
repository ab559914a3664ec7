//! Joins: lists that rise and lists that do not, each limit of head and range,
//! and tables of any length.

use super::random::Random;
use super::request::{Kind, Request, Set, Value};
use std::rc::Rc;

struct Join {
    first: Vec<u32>,
    second: Vec<u32>,
    head: u16,
    range: (u16, u16),
    room: usize,
}

fn request(join: Join, random: &mut Random) -> Request {
    let set = Set {
        letters: Vec::new(),
        lengths: join.first,
    };
    Request {
        partners: join.second,
        head: join.head,
        low: join.range.0,
        high: join.range.1,
        rows: random.narrow(join.room),
        ..Request::new(Kind::Join, &Rc::new(set), Value::default())
    }
}

/// The paper's own join, with each limit of head and range, and with tables
/// about as long as the first list.
fn limits(random: &mut Random) -> Vec<Request> {
    let bounds = [0, 1, 2, 254, 255, 256, 65_535];
    let mut joins = Vec::new();
    let mut add = |head, range, room| {
        joins.push(Join {
            first: vec![1, 4],
            second: vec![3, 5],
            head,
            range,
            room,
        });
    };
    for head in [0, 1, 2, 11, 12, 13, 255, 256, 257, 65_535] {
        add(head, (0, 1), 2);
    }
    for low in bounds {
        for high in bounds {
            add(1, (low, high), 2);
        }
    }
    for room in 0..5 {
        add(1, (0, 0), room);
        add(1, (0, 1), room);
    }
    // Positions at both ends, alone and among others, in either list.
    for position in [0, 1, 2, 65_535, 65_536, 65_537, 1 << 31, u32::MAX] {
        for list in [vec![position], vec![1, position], vec![position, 65_536]] {
            for (first, second) in [(list.clone(), vec![65_536]), (vec![1, 65_500], list)] {
                joins.push(Join {
                    first,
                    second,
                    head: 1,
                    range: (0, 255),
                    room: 3,
                });
            }
        }
    }
    joins
        .into_iter()
        .map(|join| request(join, random))
        .collect()
}

/// A list that rises by steps of 1 to `step`.
fn rising(random: &mut Random, length: u64, step: u64) -> Vec<u32> {
    let mut last = 0;
    let mut list = Vec::new();
    for _ in 0..length {
        last += random.within(1, step);
        if last > 65_536 {
            break;
        }
        list.push(last as u32);
    }
    list
}

/// The list with one number changed, or two in each other's place.
fn damage(random: &mut Random, list: &mut [u32]) {
    if list.is_empty() {
        return;
    }
    let at = random.below(list.len() as u64) as usize;
    match random.below(4) {
        0 => list[at] = random.pick(&[0, 65_537, u32::MAX]),
        1 => list[at] = list[at.saturating_sub(1)],
        2 => list.swap(at, 0),
        _ => list[at] = random.edge() as u32,
    }
}

fn random_join(random: &mut Random) -> Join {
    let longest = random.pick(&[4, 40, 400, 4_000]);
    let length = random.below(longest);
    let step = random.pick(&[2, 5, 30, 300]);
    let mut first = rising(random, length, step);
    let mut second = rising(random, length, step);
    if random.once_in(6) {
        damage(random, &mut first);
    }
    if random.once_in(6) {
        damage(random, &mut second);
    }
    let low = random.below(8) as u16;
    let span = random.pick(&[4, 250]);
    let high = low + random.below(span) as u16;
    let least = if random.once_in(20) { 0 } else { 1 };
    let room = match random.below(8) {
        0 => random.below(first.len() as u64 + 1) as usize,
        1 => first.len(),
        _ => first.len() + random.below(20) as usize,
    };
    Join {
        first,
        second,
        head: random.within(least, 13) as u16,
        range: if random.once_in(20) {
            (high, low)
        } else {
            (low, high)
        },
        room,
    }
}

pub fn requests(random: &mut Random) -> Vec<Request> {
    let mut requests = limits(random);
    for _ in 0..4_000 {
        let join = random_join(random);
        requests.push(request(join, random));
    }
    requests
}
