//! A Rust program that keeps position lists along the path, as the authors of
//! EXMOTIF do: for each prefix of the candidate, the rising list of places at
//! which its last letter can stand. A letter more goes over the list of the
//! prefix before; a letter after a gap joins that list with the letter's own.
//! A candidate costs as much as its lists are long, and the lists of a path
//! are kept until the walk leaves it.

use crate::walk::{Examine, Place, Search};
use second::Component;

pub struct Positions<'a> {
    search: &'a Search,
    /// The letters, with a byte that is none after each sequence.
    text: Vec<u8>,
    /// For each byte of the text, its sequence's number and beginning.
    sequence: Vec<u32>,
    begin: Vec<u32>,
    /// The places of each letter.
    of_letter: [Vec<u32>; 4],
    /// The lists of the prefixes of 1, 2, .. letters of `word`.
    path: Vec<Vec<u32>>,
    word: Vec<u8>,
    /// Counts beside a component's list and the next one's.
    ways: Vec<u64>,
    later: Vec<u64>,
}

impl<'a> Positions<'a> {
    pub fn new(search: &'a Search) -> Positions<'a> {
        let mut made = Positions {
            search,
            text: Vec::new(),
            sequence: Vec::new(),
            begin: Vec::new(),
            of_letter: Default::default(),
            path: vec![Vec::new(); search.depth()],
            word: Vec::new(),
            ways: Vec::new(),
            later: Vec::new(),
        };
        for (number, sequence) in search.set.sequences().enumerate() {
            let begin = made.text.len();
            made.text.extend(sequence);
            made.text.push(0);
            made.sequence.resize(made.text.len(), number as u32);
            made.begin.resize(made.text.len(), begin as u32);
        }
        for (at, byte) in made.text.iter().enumerate() {
            if let Some(value) = b"ACGT".iter().position(|letter| letter == byte) {
                made.of_letter[value].push(at as u32);
            }
        }
        made
    }

    /// The list of the prefix of so many letters, from the one before.
    fn extend(&mut self, letters: usize) {
        let letter = self.word[letters - 1];
        let value = b"ACGT".iter().position(|l| *l == letter).unwrap_or(0);
        let (before, from_here) = self.path.split_at_mut(letters - 1);
        let to = &mut from_here[0];
        to.clear();
        match (
            before.last(),
            gap_before(&self.search.components, letters - 1),
        ) {
            (None, _) => to.extend(&self.of_letter[value]),
            (Some(ends), None) => {
                let text = &self.text;
                to.extend(
                    ends.iter()
                        .map(|end| end + 1)
                        .filter(|at| text[*at as usize] == letter),
                );
            }
            (Some(ends), Some(next)) => join(ends, &self.of_letter[value], next, &self.begin, to),
        }
    }

    /// How many sequences a list has places in.
    fn sequences(&self, list: &[u32]) -> u32 {
        let mut last = u32::MAX;
        let mut count = 0;
        for at in list {
            let sequence = self.sequence[*at as usize];
            count += u32::from(sequence != last);
            last = sequence;
        }
        count
    }
}

/// The component that begins after so many letters, if one does.
fn gap_before(components: &[Component], letters: usize) -> Option<&Component> {
    let mut sum = 0;
    components.iter().find(|component| {
        let begins = sum == letters;
        sum += usize::from(component.length);
        begins
    })
}

/// The starts that have an end before them within the gap range, and in the
/// same sequence. Both lists rise, and so does the nearest end that will do.
fn join(ends: &[u32], starts: &[u32], next: &Component, begin: &[u32], to: &mut Vec<u32>) {
    let (low, high) = (u32::from(next.low), u32::from(next.high));
    let mut first = 0;
    for start in starts {
        let least = (start.saturating_sub(high + 1)).max(begin[*start as usize]);
        while first < ends.len() && ends[first] < least {
            first += 1;
        }
        match ends.get(first) {
            None => break,
            Some(end) if end + low < *start => to.push(*start),
            Some(_) => {}
        }
    }
}

/// In how many ways the rest can follow each place of a component: the ways of
/// the next one's places at a distance in the range, and in the same sequence,
/// added. Both lists rise, and so do the first and the last place in reach.
pub fn ways_before(
    places: &[u32],
    (next, later): (&[u32], &[u64]),
    (least, most): (u32, u32),
    begins_by: impl Fn(u32, u32) -> bool,
    ways: &mut Vec<u64>,
) {
    let (mut first, mut past, mut sum) = (0, 0, 0);
    ways.clear();
    ways.extend(places.iter().map(|place| {
        while let Some(at) = next.get(past) {
            if *at > place + most || !begins_by(*at, *place) {
                break;
            }
            sum += later[past];
            past += 1;
        }
        while first < past && next[first] < place + least {
            sum -= later[first];
            first += 1;
        }
        sum
    }));
}

impl Examine for Positions<'_> {
    /// Only the letters that differ from the last candidate's are gone over;
    /// in a walk that is the last one.
    fn support(&mut self, place: Place) -> u32 {
        let word = place.word();
        let same = self
            .word
            .iter()
            .zip(&word)
            .take_while(|(a, b)| a == b)
            .count();
        self.word = word;
        for letters in same.min(place.letters - 1) + 1..=place.letters {
            self.extend(letters);
        }
        self.sequences(&self.path[place.letters - 1])
    }

    /// From the last component, each end of which has one way, back to the
    /// first, whose ways are added.
    fn weight(&mut self, _motif: u64) -> u64 {
        let mut letters = self.search.depth();
        self.ways.clear();
        self.ways.resize(self.path[letters - 1].len(), 1);
        for next in self.search.components[1..].iter().rev() {
            std::mem::swap(&mut self.ways, &mut self.later);
            let later = (&self.path[letters - 1][..], &self.later[..]);
            letters -= usize::from(next.length);
            let ends = &self.path[letters - 1];
            let (low, high) = (u32::from(next.low), u32::from(next.high));
            let length = u32::from(next.length);
            let range = (length + low, length + high);
            let begins_by = |at: u32, end: u32| self.begin[at as usize] <= end;
            ways_before(ends, later, range, begins_by, &mut self.ways);
        }
        self.ways.iter().sum()
    }
}
