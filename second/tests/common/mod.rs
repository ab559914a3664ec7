//! What the tests share: the set E, small builders and a generator.

#![allow(dead_code)]

pub mod faults;
pub mod naive;
pub mod quotes;
pub mod saves;

use second::{begin, leg, Answer, Component, Leg, Place, Profile, Refusal, Search, Template};

/// Lent sequences: the letters of all and the lengths.
#[derive(Clone, Debug)]
pub struct Lent {
    pub letters: Vec<u8>,
    pub lengths: Vec<u32>,
}

impl Lent {
    pub fn new(sequences: &[&str]) -> Lent {
        Lent {
            letters: sequences.concat().into_bytes(),
            lengths: sequences
                .iter()
                .map(|sequence| sequence.len() as u32)
                .collect(),
        }
    }

    pub fn sequences(&self) -> Vec<String> {
        let mut from = 0;
        let mut sequences = Vec::new();
        for length in &self.lengths {
            let to = from + *length as usize;
            sequences.push(String::from_utf8(self.letters[from..to].to_vec()).unwrap());
            from = to;
        }
        sequences
    }

    pub fn begin(&self, template: &Template, quorum: u64) -> Result<Search, Refusal> {
        begin(&self.letters, &self.lengths, template, quorum)
    }
}

/// The paper's set E.
pub fn e() -> Lent {
    Lent::new(&["ACGTA", "CAGGT", "AT"])
}

/// E's template, N[0,1]N.
pub fn e_template() -> Template {
    template(&[(1, 0, 0), (1, 0, 1)])
}

/// A template of the exact profile.
pub fn template(components: &[(u8, u16, u16)]) -> Template {
    Template {
        profile: Profile::Exact,
        components: components
            .iter()
            .map(|(length, low, high)| Component {
                length: *length,
                low: *low,
                high: *high,
                allowance: 0,
            })
            .collect(),
    }
}

/// A template of the mixed profile: length, allowance, l and u of each
/// component.
pub fn mixed(components: &[(u8, u16, u16, u16)]) -> Template {
    Template {
        profile: Profile::Mixed,
        components: components
            .iter()
            .map(|(length, allowance, low, high)| Component {
                length: *length,
                low: *low,
                high: *high,
                allowance: *allowance,
            })
            .collect(),
    }
}

pub fn place(letters: u8, number: u64) -> Place {
    Place { letters, number }
}

/// The letters of a profile's motifs, in the paper's and the request's order.
pub fn alphabet(profile: Profile) -> &'static str {
    match profile {
        Profile::Exact => "ACGT",
        Profile::Mixed => "ACGTRYKMSWBDHV",
    }
}

/// "Its number reads them as base-4 digits"; "numbers are base 16 by place in
/// that order".
fn base(profile: Profile) -> u64 {
    match profile {
        Profile::Exact => 4,
        Profile::Mixed => 16,
    }
}

/// The number that a profile gives to these letters.
pub fn number_in(profile: Profile, letters: &str) -> u64 {
    letters.chars().fold(0, |number, letter| {
        let digit = alphabet(profile).find(letter).expect("a letter");
        number * base(profile) + digit as u64
    })
}

/// The letters of a profile's number.
pub fn letters_in(profile: Profile, letters: usize, number: u64) -> String {
    let digit = |power: u32| number / base(profile).pow(power) % base(profile);
    (0..letters as u32)
        .rev()
        .map(|power| alphabet(profile).as_bytes()[digit(power) as usize] as char)
        .collect()
}

pub fn number(letters: &str) -> u64 {
    number_in(Profile::Exact, letters)
}

pub fn letters_of(letters: usize, number: u64) -> String {
    letters_in(Profile::Exact, letters, number)
}

pub fn mixed_number(letters: &str) -> u64 {
    number_in(Profile::Mixed, letters)
}

/// One row of a list: motif number, support, weighted support.
pub type Row = (u64, u32, u64);

/// A leg with tables of `room` rows; its rows beside its answer. The tables'
/// rest must stay.
pub fn leg_of(lent: &Lent, search: &Search, budget: u64, room: usize) -> (Leg, Vec<Row>) {
    let mut motifs = vec![77; room];
    let mut supports = vec![78; room + 1];
    let mut weights = vec![79; room + 2];
    let answer = leg(
        &lent.letters,
        &lent.lengths,
        search,
        budget,
        &mut motifs,
        &mut supports,
        &mut weights,
    );
    assert!(motifs[answer.rows..].iter().all(|number| *number == 77));
    assert!(supports[answer.rows..].iter().all(|number| *number == 78));
    assert!(weights[answer.rows..].iter().all(|number| *number == 79));
    let rows = (0..answer.rows)
        .map(|row| (motifs[row], supports[row], weights[row]))
        .collect();
    (answer, rows)
}

/// A whole search in one leg: its steps and its list.
pub fn whole(lent: &Lent, template: &Template, quorum: u64) -> (u64, Vec<Row>) {
    let search = lent.begin(template, quorum).expect("a search");
    let (answer, rows) = leg_of(lent, &search, u64::MAX, 100_000);
    assert_eq!(answer.answer, Answer::Ended);
    assert_eq!(answer.search.place, place(0, 0));
    (answer.steps, rows)
}

pub fn save_of(lent: &Lent, search: &Search) -> Vec<u8> {
    let mut bytes = vec![0xEE; 200];
    let length = second::save(&lent.letters, &lent.lengths, search, &mut bytes).expect("a save");
    assert!(bytes[length..].iter().all(|byte| *byte == 0xEE));
    bytes.truncate(length);
    bytes
}

/// A search's first steps, so many of which it takes: their rows, and its save
/// after them, which gives it back.
pub fn walked(lent: &Lent, template: &Template, quorum: u64, steps: u64) -> (Vec<Row>, Vec<u8>) {
    let search = lent.begin(template, quorum).expect("a search");
    let (answer, rows) = leg_of(lent, &search, steps, 5);
    assert_eq!((answer.answer, answer.steps), (Answer::Spent, steps));
    let bytes = save_of(lent, &answer.search);
    assert_eq!(restore_of(lent, &bytes), Ok(answer.search));
    (rows, bytes)
}

pub fn restore_of(lent: &Lent, bytes: &[u8]) -> Result<Search, Refusal> {
    second::restore(&lent.letters, &lent.lengths, bytes)
}

pub fn refusal(number: u8, place: u64) -> Refusal {
    Refusal { number, place }
}

/// A small xorshift generator.
pub struct Random(u64);

impl Random {
    pub fn new(seed: u64) -> Random {
        Random(seed.wrapping_mul(0x9E37_79B9_7F4A_7C15) | 1)
    }

    /// A number from 0 to `limit` - 1.
    pub fn below(&mut self, limit: u64) -> u64 {
        self.0 ^= self.0 << 13;
        self.0 ^= self.0 >> 7;
        self.0 ^= self.0 << 17;
        (self.0 >> 11) % limit
    }

    /// Sequences of random letters from the first `alphabet` ones.
    pub fn sequences(&mut self, most: u64, longest: u64, alphabet: u64) -> Lent {
        let mut sequences = Vec::new();
        for _ in 0..1 + self.below(most) {
            let length = self.below(longest + 1);
            let letters: String = (0..length)
                .map(|_| b"ACGT"[self.below(alphabet) as usize] as char)
                .collect();
            sequences.push(letters);
        }
        Lent::new(&sequences.iter().map(String::as_str).collect::<Vec<_>>())
    }

    /// A template of at most `most` letters in all, rather many than few.
    pub fn template(&mut self, most: u64) -> Template {
        let mut left = most - self.below(most).min(self.below(most));
        let mut components = Vec::new();
        while left > 0 && components.len() < 6 {
            let longest = if self.below(2) == 0 { 1 } else { left.min(3) };
            let length = 1 + self.below(longest);
            let low = self.below(3) as u16;
            let high = low + self.below(3) as u16;
            let range = if components.is_empty() {
                (0, 0)
            } else {
                (low, high)
            };
            components.push((length as u8, range.0, range.1));
            left -= length;
        }
        template(&components)
    }
}
