//! What the programs share: the sequences, the candidates in their order, and
//! what a leg answers.

use second::{Component, Profile};
use tulfasheq::Stop;

/// Lent sequences.
#[derive(Clone, Debug)]
pub struct Set {
    pub letters: Vec<u8>,
    pub lengths: Vec<u32>,
}

impl Set {
    pub fn of(sequences: &[Vec<u8>]) -> Set {
        Set {
            letters: sequences.concat(),
            lengths: sequences.iter().map(|s| s.len() as u32).collect(),
        }
    }

    /// Each sequence's own letters.
    pub fn sequences(&self) -> impl Iterator<Item = &[u8]> {
        let mut rest = &self.letters[..];
        self.lengths.iter().map(move |length| {
            let (sequence, after) = rest.split_at(*length as usize);
            rest = after;
            sequence
        })
    }
}

/// A template and a quorum, over a set. The Rust programs have the exact
/// profile alone.
#[derive(Clone, Debug)]
pub struct Search {
    pub set: Set,
    pub profile: Profile,
    pub components: Vec<Component>,
    pub quorum: u64,
}

impl Search {
    /// K, the letters in all.
    pub fn depth(&self) -> usize {
        self.components.iter().map(|c| usize::from(c.length)).sum()
    }

    /// The same in the mixed profile, with an allowance for each component, at
    /// most its length.
    pub fn mixed(&self, allowance: u16) -> Search {
        let mut search = self.clone();
        search.profile = Profile::Mixed;
        for component in &mut search.components {
            component.allowance = allowance.min(component.length.into());
        }
        search
    }
}

/// The next candidate: its letters and its number.
#[derive(Clone, Copy, Debug, PartialEq, Eq)]
pub struct Place {
    pub letters: usize,
    pub number: u64,
}

impl Place {
    pub const FIRST: Place = Place {
        letters: 1,
        number: 0,
    };

    /// The place of a word.
    pub fn of(word: &[u8]) -> Place {
        let value = |letter: &u8| b"ACGT".iter().position(|l| l == letter).unwrap_or(0) as u64;
        Place {
            letters: word.len(),
            number: word
                .iter()
                .fold(0, |number, letter| number * 4 + value(letter)),
        }
    }

    /// The letters, first letter first.
    pub fn word(self) -> Vec<u8> {
        (0..self.letters)
            .rev()
            .map(|digit| b"ACGT"[(self.number >> (2 * digit)) as usize & 3])
            .collect()
    }

    /// The candidate after this one; no letters where there is none.
    pub fn next(self, frequent: bool, depth: usize) -> Place {
        if frequent && self.letters < depth {
            return Place {
                letters: self.letters + 1,
                number: self.number * 4,
            };
        }
        let Place {
            mut letters,
            mut number,
        } = self;
        while letters > 0 && number % 4 == 3 {
            letters -= 1;
            number /= 4;
        }
        if letters > 0 {
            number += 1;
        }
        Place { letters, number }
    }
}

/// The tables of a leg.
#[derive(Clone, Debug, PartialEq, Eq)]
pub struct Rows {
    pub motifs: Vec<u64>,
    pub supports: Vec<u32>,
    pub weights: Vec<u64>,
}

impl Rows {
    pub fn with_room(room: usize) -> Rows {
        Rows {
            motifs: vec![0; room],
            supports: vec![0; room],
            weights: vec![0; room],
        }
    }
}

/// How far a leg went.
#[derive(Clone, Copy, Debug, PartialEq, Eq)]
pub struct Went {
    pub stop: Stop,
    pub steps: u64,
    pub rows: usize,
    pub place: Place,
}

/// How a program examines candidates, one after another.
pub trait Examine {
    /// The candidate's support.
    fn support(&mut self, place: Place) -> u32;
    /// The weighted support of a motif, the last candidate examined.
    fn weight(&mut self, motif: u64) -> u64;
}

/// A leg from a place on, of whatever program examines.
pub fn leg<E: Examine>(
    examine: &mut E,
    search: &Search,
    mut place: Place,
    budget: u64,
    tables: &mut Rows,
) -> Went {
    let depth = search.depth();
    let room = tables.motifs.len();
    let (mut steps, mut rows) = (0, 0);
    let stop = loop {
        if place.letters == 0 {
            break Stop::Ended;
        }
        if steps == budget {
            break Stop::Spent;
        }
        let support = examine.support(place);
        let frequent = u64::from(support) >= search.quorum;
        if frequent && place.letters == depth {
            if rows == room {
                break Stop::Full;
            }
            tables.motifs[rows] = place.number;
            tables.supports[rows] = support;
            tables.weights[rows] = examine.weight(place.number);
            rows += 1;
        }
        steps += 1;
        place = place.next(frequent, depth);
    };
    Went {
        stop,
        steps,
        rows,
        place,
    }
}
