//! Legs, and legs laid end to end, with a save and a restore between them.

use super::answer::{Answer, DONE, REFUSED};
use super::random::Random;
use super::request::{Kind, Request, Set, Value};
use crate::Profile;
use std::rc::Rc;

/// The most rows that a leg's tables have.
pub const ROOM: u64 = 4_096;

/// A leg with three tables of these lengths.
pub fn leg(
    set: &Rc<Set>,
    value: Value,
    budget: u64,
    rooms: [u64; 3],
    random: &mut Random,
) -> Request {
    Request {
        budget,
        motifs: random.wide(rooms[0] as usize),
        supports: random.narrow(rooms[1] as usize),
        weights: random.wide(rooms[2] as usize),
        ..Request::new(Kind::Leg, set, value)
    }
}

/// The save of a search, to a buffer with some room over, and the restore of
/// what it wrote.
pub fn save_and_restore(set: &Rc<Set>, value: Value, random: &mut Random) -> [Request; 2] {
    let room = 128 + random.below(20) as usize;
    let save = Request {
        saved: random.bytes(room),
        ..Request::new(Kind::Save, set, value)
    };
    let answer = Answer::expected(&save);
    let restore = Request {
        saved: answer.saved[..answer.count() as usize].to_vec(),
        ..Request::new(Kind::Restore, set, Value::default())
    };
    [save, restore]
}

/// How much each leg of a relay may use.
#[derive(Clone, Copy)]
pub enum Grants {
    /// One step and one row, always.
    Single,
    /// Budgets and rooms from nothing to a few.
    Few,
    /// The same, and now and then very many.
    Any,
}

impl Grants {
    fn next(self, random: &mut Random) -> (u64, [u64; 3]) {
        let (budget, room) = match self {
            Grants::Single => return (1, [1; 3]),
            Grants::Few => (random.below(40), random.below(4)),
            Grants::Any => (
                random.pick(&[0, 1, 2, 10, 60, 400, 3_000, u64::MAX]),
                random.pick(&[0, 1, 2, 10, 100, ROOM - 3]),
            ),
        };
        // The shortest table is the room, whichever it is.
        let mut rooms = [room + random.below(3), room + random.below(3), room];
        rooms.rotate_left(random.below(3) as usize);
        (budget, rooms)
    }
}

/// The most that the last leg of a search may use, in steps and in rows.
pub type Most = (u64, u64);

/// As much as there is.
pub const ALL: Most = (u64::MAX, ROOM);

/// What is enough of a profile's search: all of an exact one. A mixed one would
/// go on for very long.
pub fn enough(profile: Profile) -> Most {
    match profile {
        Profile::Exact => ALL,
        Profile::Mixed => (2_000, 300),
    }
}

/// A new search and its legs until one ends, or at most so many; each leg
/// starts from what the restore of the one before gave. The last leg may use the
/// most that there is for one.
pub fn relay(
    set: Set,
    value: Value,
    legs: usize,
    grants: Grants,
    most: Most,
    random: &mut Random,
) -> Vec<Request> {
    let set = Rc::new(set);
    let begin = Request::new(Kind::Begin, &set, value);
    let begun = Answer::expected(&begin);
    let mut requests = vec![begin];
    if begun.outcome() == REFUSED {
        return requests;
    }
    let mut value = begun.search();
    for turn in 1..=legs {
        let (budget, rooms) = match turn < legs {
            true => grants.next(random),
            false => (most.0, [most.1; 3]),
        };
        let leg = leg(&set, value, budget, rooms, random);
        let answer = Answer::expected(&leg);
        requests.push(leg);
        requests.extend(save_and_restore(&set, answer.search(), random));
        // A leg from the ended place takes no step and ends again.
        if value.place == 0 {
            break;
        }
        value = answer.search();
    }
    requests
}

/// Sequences that all hold one stretch of letters, each somewhere else.
pub fn shared(stretch: &[u8], sequences: u64, random: &mut Random) -> Set {
    let sequences: Vec<Vec<u8>> = (0..sequences)
        .map(|_| {
            let (before, after) = (random.below(8), random.below(8));
            let mut letters = random.letters(before, 4);
            letters.extend(stretch);
            letters.extend(random.letters(after, 4));
            letters
        })
        .collect();
    Set::of(&sequences)
}

/// More steps than any exact search takes here.
const TO_THE_END: u64 = 100_000;

/// A search that was begun and has gone a random number of steps, or the ended
/// one. A mixed search can go on for very long, so its end is not walked to.
pub fn underway(set: &Rc<Set>, value: Value, random: &mut Random) -> Option<Value> {
    let begun = Answer::expected(&Request::new(Kind::Begin, set, value));
    if begun.outcome() != DONE {
        return None;
    }
    let mixed = value.profile == Profile::Mixed;
    let budget = random.pick(&match mixed {
        false => [0, 1, 5, 20, 90, TO_THE_END],
        true => [0, 1, 6, 25, 300, TO_THE_END],
    });
    if mixed && budget == TO_THE_END {
        return Some(begun.search().ended());
    }
    let gone = Answer::expected(&leg(set, begun.search(), budget, [ROOM; 3], random));
    Some(gone.search())
}
