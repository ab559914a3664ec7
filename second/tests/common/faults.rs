//! Searches in either profile with any faults at once, by the numbers that
//! refuse them. Where a place, a motif, an allowance or a byte that must be 0 can
//! be wrong in several ways, each is tried.

use super::{mixed, number_in, place, refusal, Lent};
use second::{Profile, Refusal, Search, Template};

/// One way in which each of these is wrong.
struct Way {
    /// A place that breaks its rule where the first component has two letters,
    /// of which in the mixed profile one may be mixed.
    place: (u8, u64),
    /// A number that is no motif's of six letters.
    motif: u64,
    /// A component, from 0, and an allowance above its length, which is at most
    /// 13.
    allowance: (usize, u16),
    /// Bytes of a save, and what they must not be; the first one's record is
    /// told.
    blank: &'static [(usize, u8)],
}

const fn way(
    place: (u8, u64),
    motif: u64,
    allowance: (usize, u16),
    blank: &'static [(usize, u8)],
) -> Way {
    Way {
        place,
        motif,
        allowance,
        blank,
    }
}

/// What the profiles differ in here.
struct Tried {
    profile: Profile,
    allowances: [u16; 3],
    /// Lengths of too many letters in all.
    too_long: [u8; 3],
    /// A place that the search comes to, and one that it does not.
    candidate: &'static str,
    no_candidate: &'static str,
    motif: &'static str,
    ways: &'static [Way],
}

/// A number too large; and too many letters.
const EXACT: Tried = Tried {
    profile: Profile::Exact,
    allowances: [0; 3],
    too_long: [12; 3],
    candidate: "ACT",
    no_candidate: "TTA",
    motif: "ACGTAC",
    ways: &[
        way((2, 16), u64::MAX, (0, 0), &[(16 + 15, 1), (48 + 3, 255)]),
        // An allowance is none of the exact profile's bytes.
        way((255, 0), 1 << 12, (0, 0), &[(48 + 3, 1), (64 + 7, 255)]),
    ],
};

/// Too many letters, a number too large, a digit of 14 and of 15, a letter over
/// the allowance. A profile of 2 and of 255 are told in the size record, whatever
/// the components' bytes 3 are.
const MIXED: Tried = Tried {
    profile: Profile::Mixed,
    allowances: [1, 1, 0],
    too_long: [2, 12, 3],
    candidate: "RCY",
    no_candidate: "TKA",
    motif: "AYGKAC",
    ways: &[
        way((255, 0), u64::MAX, (1, 14), &[(16 + 15, 1)]),
        way((2, 0x100), 0x100_0000, (1, 255), &[(12, 2)]),
        way((2, 0x0E), 0xE, (2, 14), &[(16 + 8, 255)]),
        way((2, 0xF0), 0xF0_0000, (2, 200), &[(12, 255)]),
        way((2, 0x45), 0x45_0000, (2, 255), &[(48 + 9, 1)]),
    ],
};

/// Which faults are put in, by refusal number, and in which way.
#[derive(Clone, Copy)]
pub struct Faults {
    tried: &'static Tried,
    numbers: u32,
    way: &'static Way,
}

impl Faults {
    pub fn has(self, number: u8) -> bool {
        self.numbers >> number & 1 == 1
    }

    /// The refusal that comes first, with the place it tells.
    fn first(self, order: &[u8]) -> Option<Refusal> {
        let number = *order.iter().find(|number| self.has(**number))?;
        let place = match number {
            4 => 5,
            6 => 2,
            8 => 3,
            11 => 2,
            21 => self.way.blank[0].0 as u64 / 16,
            23 => 4,
            _ => 0,
        };
        Some(refusal(number, place))
    }

    pub fn lent(self) -> Lent {
        let mut lent = Lent::new(&["ACGTACGT", "ACGTTT"]);
        if self.has(1) {
            lent.lengths.resize(1_025, 0);
        }
        if self.has(2) {
            lent.lengths[1] += 65_537 - lent.letters.len() as u32;
            lent.letters.resize(65_537, b'A');
        }
        if self.has(3) {
            lent.lengths[0] += 1;
        }
        if self.has(4) {
            // A letter of a mixed motif is none of a sequence.
            lent.letters[5] = b'R';
            lent.letters[7] = b'N';
        }
        lent
    }

    pub fn template(self) -> Template {
        let lengths = match self.has(7) {
            true => self.tried.too_long,
            false => [2; 3],
        };
        let parts = lengths.iter().zip(self.tried.allowances).zip(0..);
        let mut components: Vec<(u8, u16, u16, u16)> = parts
            .map(|((length, allowance), high)| (*length, allowance, 0, high))
            .collect();
        if self.has(5) {
            components.extend([(1, 0, 0, 0); 4]);
        }
        if self.has(6) {
            components[1].0 = 13;
            components[2].0 = 0;
        }
        if self.has(8) {
            components[2].2 = 3;
        }
        if self.has(24) {
            let (component, allowance) = self.way.allowance;
            components[component].1 = allowance;
        }
        Template {
            profile: self.tried.profile,
            ..mixed(&components)
        }
    }

    pub fn quorum(self) -> u64 {
        if self.has(9) {
            3
        } else {
            2
        }
    }

    pub fn search(self, lent: &Lent) -> Search {
        let at = |letters: &str| {
            let number = number_in(self.tried.profile, letters);
            place(letters.len() as u8, number)
        };
        Search {
            template: self.template(),
            quorum: self.quorum(),
            sequences: lent.lengths.len() as u32,
            letters: lent.letters.len() as u32 + u32::from(self.has(12)),
            place: if self.has(23) {
                place(self.way.place.0, self.way.place.1)
            } else if self.has(13) {
                at(self.tried.no_candidate)
            } else {
                at(self.tried.candidate)
            },
        }
    }

    pub fn motif(self) -> u64 {
        if self.has(14) {
            self.way.motif
        } else {
            number_in(self.tried.profile, self.tried.motif)
        }
    }

    /// The bytes of the search, written here by hand.
    pub fn bytes(self, lent: &Lent) -> Vec<u8> {
        let search = self.search(lent);
        let parts = &search.template.components;
        let k: u8 = parts.iter().map(|part| part.length).sum();
        let mut bytes = vec![1, parts.len() as u8 + 2];
        bytes.extend((search.quorum as u16).to_le_bytes());
        bytes.extend((search.sequences as u16).to_le_bytes());
        bytes.extend([k, 0]);
        bytes.extend(search.letters.to_le_bytes());
        bytes.extend([u8::from(self.tried.profile == Profile::Mixed), 0, 0, 0]);
        for (index, part) in parts.iter().enumerate() {
            bytes.extend([2, index as u8 + 1, part.length, part.allowance as u8]);
            bytes.extend(part.low.to_le_bytes());
            bytes.extend(part.high.to_le_bytes());
            bytes.extend([0; 8]);
        }
        bytes.extend([3, search.place.letters, 0, 0, 0, 0, 0, 0]);
        bytes.extend(search.place.number.to_le_bytes());
        // 11 is wrong in two records, and the first is to be told; 21 is wrong
        // in an earlier record than 11, mostly.
        if self.has(11) {
            bytes[32 + 1] = 3;
            bytes[48] = 1;
        }
        if self.has(21) {
            for (at, value) in self.way.blank {
                bytes[*at] = *value;
            }
        }
        if self.has(22) {
            bytes[6] += 1;
        }
        if self.has(10) {
            bytes.push(0);
        }
        bytes
    }
}

/// Tries every set of faults from this order, in every way of both profiles: an
/// exact search has no 24. Each is tried with the refusal that has to come
/// first. The sequences are told before all that has several ways, so where one
/// of 2 to 4 is wrong, one way is enough.
pub fn each_set(order: &[u8], attempt: impl Fn(Faults, Option<Refusal>)) {
    for tried in [&EXACT, &MIXED] {
        let mut order = order.to_vec();
        order.retain(|number| *number != 24 || tried.profile == Profile::Mixed);
        for (at, way) in tried.ways.iter().enumerate() {
            for set in 0..1u32 << order.len() {
                let chosen = order.iter().zip(0..).filter(|(_, at)| set >> at & 1 == 1);
                let numbers = chosen.map(|(number, _)| 1 << number).sum();
                let faults = Faults {
                    tried,
                    numbers,
                    way,
                };
                if at == 0 || (2..=4).all(|number| !faults.has(number)) {
                    attempt(faults, faults.first(&order));
                }
            }
        }
    }
}
