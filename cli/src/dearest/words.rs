//! How many sequences, and how many places, the most frequent words have.

use crate::sequences::Sequences;

/// The longest words that are counted: of those there are 65,536. A longer one
/// is no more frequent than its first letters are.
pub const LONGEST: usize = 8;

/// By the letters of a word, up to the longest, what its most frequent one has;
/// and how long the sequences are.
#[derive(Clone, Debug)]
pub struct Words {
    sequences: [f64; LONGEST + 1],
    places: [f64; LONGEST + 1],
    /// The words of 64 places that so many sequences have at most, from none on.
    longest: Vec<f64>,
    letters_of_longest: f64,
}

/// How often a word was seen: in how many sequences, the last of which is known
/// by its number from 1, and at how many places.
#[derive(Clone, Copy, Default)]
struct Seen {
    last: u32,
    sequences: u32,
    places: u32,
}

impl Words {
    /// As if one word were all there is.
    pub fn any(set: &Sequences) -> Words {
        let mut rows: Vec<u32> = set.lengths.iter().map(|n| n.div_ceil(64)).collect();
        rows.sort_unstable_by(|a, b| b.cmp(a));
        let mut longest = vec![0.0];
        let mut sum = 0.0;
        for words in rows {
            sum += f64::from(words);
            longest.push(sum);
        }
        let letters_of_longest = set.lengths.iter().max().copied().unwrap_or(0);
        Words {
            sequences: [set.count() as f64; LONGEST + 1],
            places: [set.letters.len() as f64; LONGEST + 1],
            longest,
            letters_of_longest: f64::from(letters_of_longest),
        }
    }

    /// As the letters are.
    pub fn counted(set: &Sequences) -> Words {
        let mut words = Words::any(set);
        for letters in 1..=LONGEST {
            let (sequences, places) = most_frequent(set, letters);
            words.sequences[letters] = f64::from(sequences);
            words.places[letters] = f64::from(places);
        }
        words
    }

    /// All sequences.
    pub fn all(&self) -> f64 {
        self.sequences[0]
    }

    /// The most sequences that a word of so many letters stands in.
    pub fn sequences(&self, letters: u64) -> f64 {
        self.sequences[LONGEST.min(letters as usize)]
    }

    /// The most places at which one stands.
    pub fn places(&self, letters: u64) -> f64 {
        self.places[LONGEST.min(letters as usize)]
    }

    /// The words of 64 places of so many sequences, the longest ones.
    pub fn longest(&self, sequences: f64) -> f64 {
        self.longest[sequences as usize]
    }

    /// Whether no sequence has more than one word of 64 places.
    pub fn short(&self) -> bool {
        self.letters_of_longest <= 64.0
    }

    /// The letters of the longest sequence.
    pub fn letters_of_longest(&self) -> f64 {
        self.letters_of_longest
    }
}

/// In how many sequences, and at how many places, a word of so many letters
/// stands at most.
fn most_frequent(set: &Sequences, letters: usize) -> (u32, u32) {
    let mut seen = vec![Seen::default(); 1 << (2 * letters)];
    let mask = seen.len() - 1;
    let mut rest = &set.letters[..];
    for (number, length) in (1..).zip(&set.lengths) {
        let (sequence, after) = rest.split_at(*length as usize);
        let mut word = 0;
        for (at, letter) in sequence.iter().enumerate() {
            word = (word << 2 | value(*letter)) & mask;
            if at + 1 >= letters {
                seen[word].count(number);
            }
        }
        rest = after;
    }
    let most = |of: fn(&Seen) -> u32| seen.iter().map(of).max().unwrap_or(0);
    (most(|seen| seen.sequences), most(|seen| seen.places))
}

impl Seen {
    fn count(&mut self, number: u32) {
        self.sequences += u32::from(self.last != number);
        self.last = number;
        self.places += 1;
    }
}

/// The letter's number: two bits of the byte tell A, C, G and T apart.
fn value(letter: u8) -> usize {
    usize::from(letter >> 1 & 3)
}

#[cfg(test)]
mod tests {
    use super::Words;
    use crate::sequences::Sequences;

    fn set(file: &str) -> Sequences {
        Sequences::new("a.fa".to_string(), file.as_bytes().to_vec()).expect("sequences")
    }

    fn is(number: f64, expected: u32) -> bool {
        (number - f64::from(expected)).abs() < 0.5
    }

    #[test]
    fn the_most_frequent_words_are_counted() {
        let words = Words::counted(&set(">a\nAAAC\n>b\nAAC\n>c\nTC\n>d\n"));
        assert!(is(words.all(), 4));
        // C is in three sequences; A stands at five places.
        assert_eq!((words.sequences(1), words.places(1)), (3.0, 5.0));
        // AA and AC are in two; AA stands at three places.
        assert_eq!((words.sequences(2), words.places(2)), (2.0, 3.0));
        // AAC is in both.
        assert_eq!((words.sequences(3), words.places(3)), (2.0, 2.0));
        assert_eq!((words.sequences(4), words.places(4)), (1.0, 1.0));
        assert_eq!((words.sequences(5), words.places(12)), (0.0, 0.0));
    }

    #[test]
    fn the_longest_sequences_come_first() {
        let file = format!(">a\nACGT\n>b\n{}\n>c\n", "A".repeat(129));
        let words = Words::any(&set(&file));
        let longest: Vec<f64> = (0..4).map(|n| words.longest(f64::from(n))).collect();
        assert_eq!(longest, [0.0, 3.0, 4.0, 4.0]);
        assert!(is(words.letters_of_longest(), 129));
        assert_eq!((words.sequences(12), words.places(12)), (3.0, 133.0));
    }
}
