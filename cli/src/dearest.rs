//! What a call of the library takes at most: if each of its steps and rows were
//! the dearest that its set and its template can have.

mod words;

use crate::sequences::Sequences;
use crate::template::{Component, Template};
use words::Words;

// What things take, in nanoseconds: measured over sets of 65,536 letters as one
// sequence, as 64, as 512 and as 1,024, of one letter, of which nothing is passed
// over, and of four; with some to spare. On a machine that is half as fast they
// are twice as large, and so is what a call takes at most.

/// A letter more: for the call of a candidate, for each sequence that has its
/// prefix, and for each word of 64 places of those.
const STEP: f64 = 55.0;
const SEQUENCE: f64 = 4.0;
const WORD: f64 = 0.5;

/// A gap opened: for each round of doubling, and two besides, for each sequence
/// and each word.
const OPEN_SEQUENCE: f64 = 7.0;
const OPEN_WORD: f64 = 0.42;

/// The same in a set whose sequences have one word each, over which the library
/// goes more quickly: for each sequence, its word and all.
const SHORT_SEQUENCE: f64 = 1.7;
const SHORT_OPEN: f64 = 1.1;

/// A row, and for each place where its last component stands.
const ROW: f64 = 70.0;
const PLACE: f64 = 1.2;

/// The ways through a gap counted: for each place that is reached, for each
/// sequence, for each distance, and for each that stays in a sequence.
const WAY: f64 = 1.3;
const WAYS_SEQUENCE: f64 = 15.0;
const WAYS_DISTANCE: f64 = 0.6;
const WAYS_INSIDE: f64 = 2.6;

/// The places of a word of a row.
const BITS: f64 = 64.0;

/// The letters of a sequence, which each candidate has that is longer by one.
const BASES: f64 = 4.0;

/// The letters of a mixed motif, and the most bases that one stands for.
const SYMBOLS: f64 = 14.0;
const STANDS_FOR: f64 = 3.0;

/// The candidates of so many letters: what one takes, and how many there can be.
#[derive(Clone, Copy, Debug)]
struct Depth {
    cost: f64,
    most: f64,
}

/// What a set and a template can have, in nanoseconds.
#[derive(Clone, Debug, Default)]
pub struct Dearest {
    /// The dearest candidates first.
    depths: Vec<Depth>,
    /// The gaps opened along one path.
    opened: f64,
    /// A row, without its counts of ways.
    row: f64,
    /// The counts of ways before a last component, made for its first row.
    ways: f64,
    /// The steps, at least, for each time that they are made.
    apart: f64,
}

impl Dearest {
    /// Whatever the letters are.
    pub fn of_lengths(sequences: &Sequences, template: &Template) -> Dearest {
        Dearest::with(&Words::any(sequences), template)
    }

    /// For these letters: a prefix stands in no more sequences, and at no more
    /// places, than the most frequent word that is as long as a part of it; or
    /// than that so many times as there are words that a mixed part stands for.
    pub fn of_letters(sequences: &Sequences, template: &Template) -> Dearest {
        Dearest::with(&Words::counted(sequences), template)
    }

    fn with(words: &Words, template: &Template) -> Dearest {
        let mut dearest = Dearest::default();
        // The sequences that a prefix can stand in, and how many prefixes there
        // can be.
        let (mut marked, mut most) = (words.all(), 1.0);
        for (k, component) in template.components.iter().enumerate() {
            let mut gap = 0.0;
            if k > 0 {
                gap = opened(words, marked, component);
                dearest.opened += gap;
                dearest.ways += counted(words, marked, &template.components[k - 1], component);
            }
            for letter in 1..=component.length {
                // The gap was opened for a prefix that has four longer ones at
                // least, of which this is one.
                let cost = examined(words, marked) + gap / BASES;
                gap = 0.0;
                most *= letters(component);
                dearest.depths.push(Depth { cost, most });
                marked = marked.min(words.sequences(letter) * spelled(component, letter));
            }
        }
        if let Some(last) = template.components.last() {
            dearest.row = ROW + examined(words, marked) + PLACE * places(words, marked, last);
            // Above a row, all letters were tried at each place of its component.
            dearest.apart = BASES * last.length as f64;
        }
        dearest.depths.sort_by(|a, b| b.cost.total_cmp(&a.cost));
        dearest
    }

    /// What a call takes at most, in nanoseconds.
    pub fn call(&self, steps: u64, rows: u64) -> f64 {
        let (steps, rows) = (steps as f64, rows as f64);
        // Of a path's gaps, one may be opened as the call begins, and one for
        // prefixes whose longer ones come in the next call.
        let (mut left, mut cost) = (steps, 2.0 * self.opened);
        for depth in &self.depths {
            let here = left.min(depth.most);
            cost += here * depth.cost;
            left -= here;
        }
        // The first prefix and the last may be of other calls too.
        cost + rows * self.row + rows.min(steps / self.apart + 2.0) * self.ways
    }
}

/// What a candidate takes whose prefix stands in so many sequences.
fn examined(words: &Words, marked: f64) -> f64 {
    if words.short() {
        return STEP + SHORT_SEQUENCE * marked;
    }
    STEP + SEQUENCE * marked + WORD * words.longest(marked)
}

/// What it takes to open the gap before a component.
fn opened(words: &Words, marked: f64, component: &Component) -> f64 {
    let rounds = span(component).log2().ceil() + 2.0;
    if words.short() {
        return rounds * SHORT_OPEN * marked;
    }
    rounds * (OPEN_SEQUENCE * marked + OPEN_WORD * words.longest(marked))
}

/// What it takes to count the ways through the gap between two components.
fn counted(words: &Words, marked: f64, before: &Component, component: &Component) -> f64 {
    let span = span(component);
    // The words that the places behind a start can lie in.
    let reached = places(words, marked, before) * (((span - 1.0) / BITS).ceil() + 1.0);
    let inside = span.min(words.letters_of_longest());
    // The row of the component before is made again.
    examined(words, marked)
        + WAY * BITS * reached.min(words.longest(marked))
        + marked * (WAYS_SEQUENCE + WAYS_DISTANCE * span + WAYS_INSIDE * inside)
}

/// The places at which a component can stand.
fn places(words: &Words, marked: f64, component: &Component) -> f64 {
    let letters = component.length;
    let most = (1..=letters).map(|n| words.places(n) * spelled(component, n));
    most.fold(BITS * words.longest(marked), f64::min)
}

/// How many words the first letters of a component can stand for, of so many as
/// words are counted by.
fn spelled(component: &Component, letters: u64) -> f64 {
    let several = component.allowance.min(letters).min(words::LONGEST as u64);
    STANDS_FOR.powi(several as i32)
}

/// The letters that may stand at a place of a component.
fn letters(component: &Component) -> f64 {
    if component.allowance == 0 {
        BASES
    } else {
        SYMBOLS
    }
}

/// The distances of the gap before a component.
fn span(component: &Component) -> f64 {
    (component.high - component.low + 1) as f64
}

#[cfg(test)]
mod tests {
    use super::Dearest;
    use crate::processor;
    use crate::sequences::Sequences;
    use crate::template::Template;
    use library::limits;

    const SHAPE: &str = "NNNN[0,30]NNNN[0,30]NN";

    /// So many records of as many letters, drawn from these.
    fn set(records: usize, letters: usize, from: &[u8]) -> Sequences {
        let mut state: u64 = 1;
        let mut file = String::new();
        for _ in 0..records {
            file.push_str(">a\n");
            for _ in 0..letters {
                state = state
                    .wrapping_mul(6_364_136_223_846_793_005)
                    .wrapping_add(1);
                file.push(char::from(from[(state >> 33) as usize % from.len()]));
            }
            file.push('\n');
        }
        Sequences::new("a.fa".to_string(), file.into_bytes()).expect("sequences")
    }

    fn template(mixed: Option<&str>) -> Template {
        Template::read(SHAPE, mixed).expect("one")
    }

    #[test]
    fn what_comes_is_no_dearer_than_the_most_frequent_words_allow() {
        let ratio = |set: &Sequences, mixed: Option<&str>| {
            let template = template(mixed);
            Dearest::of_letters(set, &template).call(100_000, 1_000)
                / Dearest::of_lengths(set, &template).call(100_000, 1_000)
        };
        let words = set(64, 1_024, b"ACGT");
        assert!(ratio(&words, None) < 0.9, "{}", ratio(&words, None));
        let words = set(1_024, 64, b"ACGT");
        assert!(ratio(&words, None) < 0.4, "{}", ratio(&words, None));
        // A letter that stands for several bases is three words' at most, and
        // four of them are as much as all.
        assert!(
            ratio(&words, Some("1")) < 0.8,
            "{}",
            ratio(&words, Some("1"))
        );
        assert!(ratio(&words, Some("1")) > 2.0 * ratio(&words, None));
        assert!(ratio(&words, Some("4,4,2")) > 0.9);
        // One word is all there is.
        let one = ratio(&set(64, 1_024, b"A"), None);
        assert!(one > 0.99 && one <= 1.0, "{one}");
    }

    #[test]
    fn a_call_has_no_more_of_a_depth_than_there_are() {
        let set = set(64, 1_024, b"A");
        let template = Template::read("NNN", None).expect("one");
        let dearest = Dearest::of_lengths(&set, &template);
        let whole = 4 + 16 + 64;
        assert!(dearest.call(whole - 1, 0) < dearest.call(whole, 0));
        assert!(dearest.call(10 * whole, 0) <= dearest.call(whole, 0));
    }

    #[test]
    fn counts_of_ways_are_made_once_in_so_many_steps() {
        let set = set(64, 1_024, b"A");
        let dearest = Dearest::of_lengths(&set, &template(None));
        let more = |steps, rows| dearest.call(steps, rows + 1) - dearest.call(steps, rows);
        // Two letters are eight steps at least: in 80, twelve counts.
        assert!(more(80, 11) > dearest.ways);
        assert!(more(80, 12) < dearest.ways);
    }

    /// Legs of the library that are as dear as can be take what was reckoned,
    /// or some times that on a slower machine: it is of the right order.
    #[test]
    fn the_library_takes_what_was_reckoned() {
        for (records, letters) in [(1, 65_536), (64, 1_024), (1_024, 64)] {
            let set = set(records, letters, b"ACGT");
            let template = Template::read("N[0,255]N[0,255]N[0,255]N", None).expect("one");
            let dearest = Dearest::of_letters(&set, &template);
            let mut saved = vec![0; limits::SAVED_MOST];
            let (letters, lengths) = (&set.letters, &set.lengths);
            let begun = library::begin(letters, lengths, template.lent(), 1, &mut saved);
            saved.truncate(begun.expect("a search"));
            let mut ratios = Vec::new();
            for _ in 0..4 {
                let (mut motifs, mut supports, mut weights) = ([0; 50], [0; 50], [0; 50]);
                let begun = processor::time();
                let leg = library::leg(
                    letters,
                    lengths,
                    &mut saved,
                    60,
                    &mut motifs,
                    &mut supports,
                    &mut weights,
                )
                .expect("a leg");
                let took = processor::time().saturating_sub(begun).as_secs_f64() * 1e9;
                ratios.push(took / dearest.call(leg.steps, leg.rows as u64));
            }
            ratios.sort_by(f64::total_cmp);
            assert!(ratios[1] > 0.05 && ratios[1] < 2.5, "{records}: {ratios:?}");
        }
    }
}
