//! A Rust program that keeps rows of bits along the path, as the library does.
//! The row of a prefix has a bit where its last component, cut short, can start,
//! those before it placed. A letter more is an AND with the letter's own row,
//! shifted by the letter's place in its component; a gap is opened once for a
//! prefix that ends a component. The rows of the path are kept until the walk
//! leaves it, and only sequences that a prefix is marked in are looked at for
//! what lies under it, as long as enough of them can be left; in a long sequence
//! only the lines that have a bit, where those are few, which is decided once for
//! a prefix. The letters' rows are kept shifted for every place of a component,
//! or for as many as there is room for.

use crate::letters::{letter_rows, shifted_rows};
use crate::lines::LINE;
use crate::walk::{Examine, Place, Search};
use crate::words::{open, open_word, shifted, Row, Span};

/// So many words of a row are passed over at once where they are empty.
const STRETCH: usize = 16;
/// The words that there are for the letters' rows: as many as the library has.
const ROOM: usize = 33_152;

pub struct Bits<'a> {
    search: &'a Search,
    spans: Vec<Span>,
    /// The long sequences, by their numbers.
    long: Vec<(usize, Span)>,
    /// Whether every sequence has one word.
    short: bool,
    /// The letters' rows, each shifted for so many places of a component.
    letters: [Vec<u64>; 4],
    places: usize,
    /// The component of each letter of a motif, and its place in it.
    inside: Vec<(usize, usize)>,
    /// The rows of the prefixes of the last candidate, by their letters; and how
    /// many letters that one has.
    rows: Vec<Row>,
    stand: usize,
    /// What each component's first letter is added to.
    opened: Vec<Row>,
    spare: [Vec<u64>; 2],
    /// For each bit of the last component's opened row, in how many ways those
    /// before it can be placed, and the prefix that this is counted for. The
    /// counts of the component before it are another table.
    ways: Vec<u64>,
    before: Vec<u64>,
    counted: Option<u64>,
}

impl<'a> Bits<'a> {
    pub fn new(search: &'a Search) -> Bits<'a> {
        let spans = Span::of(&search.set);
        let full = Row::full(&spans);
        let words = full.words.len();
        let mut inside = Vec::new();
        for (component, shape) in search.components.iter().enumerate() {
            inside.extend((0..usize::from(shape.length)).map(|i| (component, i)));
        }
        let row = || Row::empty(&spans);
        let mut opened: Vec<Row> = search.components.iter().map(|_| row()).collect();
        opened[0] = full;
        let longest = search.components.iter().map(|c| usize::from(c.length));
        let places = longest.max().unwrap_or(1).min(ROOM / (4 * words).max(1));
        let rows = (0..=inside.len()).map(|_| row()).collect();
        Bits {
            search,
            letters: letter_rows(&search.set, words).map(|row| shifted_rows(&row, &spans, places)),
            places,
            short: spans.iter().all(|span| span.end() - span.begin() == 1),
            long: Span::long(&spans),
            spans,
            rows,
            inside,
            stand: 0,
            opened,
            spare: [(); 2].map(|()| vec![0; words]),
            ways: vec![1; 64 * words * usize::from(search.components.len() == 1)],
            before: Vec::new(),
            counted: None,
        }
    }

    /// The row of a prefix from the one before, and its support.
    fn extend(&mut self, letters: usize, letter: u64, quorum: u32) -> u32 {
        let (component, i) = self.inside[letters - 1];
        let (before, from_here) = self.rows.split_at_mut(letters);
        let from = match i {
            0 => &self.opened[component],
            _ => &before[letters - 1],
        };
        let to = &mut from_here[0];
        let (kept, i) = if i < self.places { (i, 0) } else { (0, i) };
        let words = kept * to.words.len()..(kept + 1) * to.words.len();
        let letter = &self.letters[letter as usize & 3][words];
        match (self.short, from.few) {
            (true, _) => to.keep_short(from, letter, i, quorum),
            (_, true) => to.keep_few(from, letter, i, &self.spans, quorum),
            _ => to.keep(from, letter, i, &self.spans, quorum),
        }
    }

    /// Makes ready what letters behind a prefix are added to: opens the gap if it
    /// ends a component, and decides whether the row has few bits. One that comes
    /// of a row with few has few.
    fn open(&mut self, letters: usize) {
        let (component, i) = self.inside[letters];
        let row = &mut self.rows[letters];
        if i > 0 && !row.few {
            row.decide(&self.long);
        }
        if i > 0 || component == 0 {
            return;
        }
        row.make_whole(&self.long);
        let (near, far) = distances(self.search, component);
        let (from, to) = (&self.rows[letters], &mut self.opened[component]);
        to.marks = from.marks;
        for span in from.marked().map(|sequence| self.spans[sequence]) {
            let (begin, end) = (span.begin(), span.end());
            if end - begin == 1 {
                to.words[begin] = open_word(from.words[begin], near, far + 1 - near);
                continue;
            }
            let [row, spare] = &mut self.spare;
            let (row, spare) = (&mut row[begin..end], &mut spare[begin..end]);
            row.copy_from_slice(&from.words[begin..end]);
            open(row, near, far + 1 - near, spare, &mut to.words[begin..end]);
        }
        to.few = false;
        to.decide(&self.long);
    }

    /// Counts the ways of a prefix that ends a component, the one before the
    /// last. Of the first component's starts each has one way; those of the
    /// next are the sums over its distances, by one sum that slides along and
    /// changes only where a start comes into reach or goes out of it.
    fn count(&mut self) {
        let mut letters = 0;
        for component in 1..self.search.components.len() {
            letters += usize::from(self.search.components[component - 1].length);
            let (near, far) = distances(self.search, component);
            if component > 1 {
                std::mem::swap(&mut self.ways, &mut self.before);
            }
            self.ways.resize(64 * self.rows[0].words.len(), 0);
            let (row, opened) = (&self.rows[letters], &self.opened[component]);
            for span in row.marked().map(|sequence| self.spans[sequence]) {
                let (begin, end) = (span.begin(), span.end());
                let starts = &row.words[begin..end];
                let before = (component > 1).then(|| &self.before[64 * begin..64 * end]);
                let ways = self.ways[64 * begin..64 * end].chunks_exact_mut(64);
                let at = |place: usize| before.map_or(1, |before| before[place]);
                let mut sum = 0;
                let words = opened.words[begin..end].iter().zip(ways);
                for (word, (opened, ways)) in words.enumerate() {
                    if *opened == 0 {
                        sum = 0;
                        continue;
                    }
                    let come = shifted(starts, near, word);
                    let gone = shifted(starts, far + 1, word);
                    let (mut events, mut from) = (come | gone, 0);
                    while events != 0 {
                        let bit = events.trailing_zeros() as usize;
                        events &= events - 1;
                        ways[from..bit].fill(sum);
                        from = bit;
                        if come >> bit & 1 == 1 {
                            sum += at(64 * word + bit - near);
                        }
                        if gone >> bit & 1 == 1 {
                            sum -= at(64 * word + bit - far - 1);
                        }
                    }
                    ways[from..].fill(sum);
                }
            }
        }
    }

    /// The ways of the bits of a long sequence, in the lines that have one, added.
    #[inline(never)]
    fn added_in_lines(&self, row: &Row, span: Span) -> u64 {
        let words = &row.words[span.words()];
        let ways = &self.ways[64 * span.begin()..64 * span.end()];
        let mut sum = 0;
        for (word, told) in row.lines[span.told()].iter().enumerate() {
            let mut told = *told;
            while told != 0 {
                let at = LINE * (64 * word + told.trailing_zeros() as usize);
                let end = words.len().min(at + LINE);
                sum += added(&words[at..end], &ways[64 * at..64 * end]);
                told &= told - 1;
            }
        }
        sum
    }
}

/// The least and the most distance from a component's start to the next one's.
fn distances(search: &Search, next: usize) -> (usize, usize) {
    let length = usize::from(search.components[next - 1].length);
    let gap = &search.components[next];
    (
        length + usize::from(gap.low),
        length + usize::from(gap.high),
    )
}

impl Examine for Bits<'_> {
    /// Only the last letter's row is made, but for the first candidate, whose
    /// path is made with it.
    fn support(&mut self, place: Place) -> u32 {
        let mut support = 0;
        for letters in self.stand.min(place.letters - 1) + 1..=place.letters {
            if letters > self.stand {
                self.open(letters - 1);
            }
            let quorum = match letters == place.letters {
                true => self.search.quorum as u32,
                false => 0,
            };
            let letter = place.number >> (2 * (place.letters - letters));
            support = self.extend(letters, letter, quorum);
        }
        self.stand = place.letters;
        support
    }

    /// The ways of the starts that the last component has, added.
    fn weight(&mut self, motif: u64) -> u64 {
        let last = self.search.components.last().map_or(0, |c| c.length);
        let prefix = motif >> (2 * last);
        if self.counted != Some(prefix) {
            self.count();
            self.counted = Some(prefix);
        }
        let row = &self.rows[self.inside.len()];
        let mut sum = 0;
        for span in row.marked().map(|sequence| self.spans[sequence]) {
            let (begin, end) = (span.begin(), span.end());
            if row.few && span.is_long() {
                sum += self.added_in_lines(row, span);
                continue;
            }
            let ways = self.ways[64 * begin..64 * end].chunks(64 * STRETCH);
            for (words, ways) in row.words[begin..end].chunks(STRETCH).zip(ways) {
                if words.len() == STRETCH && words.iter().fold(0, |all, word| all | word) == 0 {
                    continue;
                }
                sum += added(words, ways);
            }
        }
        sum
    }
}

/// The ways of the bits of some words, added.
#[inline(always)]
fn added(words: &[u64], ways: &[u64]) -> u64 {
    let mut sum = 0;
    for (word, ways) in words.iter().zip(ways.chunks_exact(64)) {
        let mut bits = *word;
        while bits != 0 {
            sum += ways[bits.trailing_zeros() as usize];
            bits &= bits - 1;
        }
    }
    sum
}
