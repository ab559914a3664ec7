//! A request: one call with all that is lent to it.

use crate::Profile;
use std::rc::Rc;

/// Lent sequences: the letters of all, and the lengths.
#[derive(Clone, Debug, Default, PartialEq, Eq)]
pub struct Set {
    pub letters: Vec<u8>,
    pub lengths: Vec<u32>,
}

impl Set {
    pub fn of<S: AsRef<[u8]>>(sequences: &[S]) -> Set {
        Set {
            letters: sequences.iter().flat_map(|s| s.as_ref().to_vec()).collect(),
            lengths: sequences.iter().map(|s| s.as_ref().len() as u32).collect(),
        }
    }

    /// The paper's set E.
    pub fn e() -> Set {
        Set::of(&["ACGTA", "CAGGT", "AT"])
    }

    /// The worked example of the source document.
    pub fn worked_example() -> Set {
        Set::of(&[
            "CCGTACCGAACCTCAAA",
            "CCGTTATAGGAACCATT",
            "TATGGAACCATCTT",
            "TAACGGATCCCTTT",
        ])
    }
}

/// A component's slot of a template, with any numbers.
#[derive(Clone, Copy, Debug, Default, PartialEq, Eq)]
pub struct Slot {
    pub length: u16,
    pub low: u16,
    pub high: u16,
    pub allowance: u16,
}

impl Slot {
    /// A slot without an allowance.
    pub fn new(length: u16, low: u16, high: u16) -> Slot {
        Slot {
            length,
            low,
            high,
            allowance: 0,
        }
    }

    pub fn allowing(self, allowance: u16) -> Slot {
        Slot { allowance, ..self }
    }
}

/// A search value as the library has it, with any numbers: a template with its
/// profile and six slots, of which it counts some; quorum, counts and place.
#[derive(Clone, Copy, Debug, Default, PartialEq, Eq)]
pub struct Value {
    pub profile: Profile,
    pub count: u16,
    pub slots: [Slot; 6],
    pub quorum: u64,
    pub sequences: u32,
    pub letters: u32,
    pub place: u8,
    pub number: u64,
}

impl Value {
    /// A template of these components in the exact profile; nothing else is
    /// set.
    pub fn of(slots: &[Slot]) -> Value {
        let mut value = Value {
            count: slots.len() as u16,
            ..Value::default()
        };
        for (slot, given) in value.slots.iter_mut().zip(slots) {
            *slot = *given;
        }
        value
    }

    /// E's template, N[0,1]N.
    pub fn pair() -> Value {
        Value::of(&[Slot::new(1, 0, 0), Slot::new(1, 0, 1)])
    }

    /// Six components of one letter, with the widest gaps between them.
    pub fn widest() -> Value {
        let mut slots = [Slot::new(1, 0, 255); 6];
        slots[0].high = 0;
        Value::of(&slots)
    }

    pub fn with_quorum(self, quorum: u64) -> Value {
        Value { quorum, ..self }
    }

    /// The same in the mixed profile, with these allowances.
    pub fn mixed(mut self, allowances: &[u16]) -> Value {
        self.profile = Profile::Mixed;
        for (slot, allowance) in self.slots.iter_mut().zip(allowances) {
            slot.allowance = *allowance;
        }
        self
    }

    /// The same with the counts of a set.
    pub fn over(self, set: &Set) -> Value {
        Value {
            sequences: set.lengths.len() as u32,
            letters: set.letters.len() as u32,
            ..self
        }
    }

    /// The same at the place of a word of its profile's letters.
    pub fn at(self, word: &[u8]) -> Value {
        let letters = self.profile.letters();
        let digit = |letter: &u8| letters.iter().position(|l| l == letter);
        Value {
            place: word.len() as u8,
            number: word.iter().fold(0, |number, letter| {
                number * self.profile.base() + digit(letter).expect("a letter") as u64
            }),
            ..self
        }
    }

    /// The same at the ended place.
    pub fn ended(self) -> Value {
        self.at(b"")
    }

    /// K, the letters of the components that it counts.
    pub fn letters_in_all(&self) -> u64 {
        let counted = self.slots.iter().take(self.count.into());
        counted.map(|slot| u64::from(slot.length)).sum()
    }

    /// The digits of a place as letters, the first letter the highest; a digit
    /// that is no letter's as `?`.
    pub fn place_letters(&self) -> String {
        let place = crate::Place {
            letters: self.place.min(32),
            number: self.number,
        };
        let name = |digit: &u8| match self.profile.letters().get(usize::from(*digit)) {
            Some(letter) => char::from(*letter),
            None => '?',
        };
        place.values(self.profile).iter().map(name).collect()
    }
}

/// The calls.
#[derive(Clone, Copy, Debug, PartialEq, Eq, PartialOrd, Ord)]
pub enum Kind {
    Begin,
    Leg,
    Save,
    Restore,
    Recover,
    Join,
    Fasta,
}

/// One call, with all that is lent to it. What a call does not take is empty
/// or 0. The tables are lent with contents, so that what a call leaves alone
/// shows.
#[derive(Clone, Debug)]
pub struct Request {
    pub kind: Kind,
    /// The sequences; a join has its first list for the lengths, and the FASTA
    /// reader its file for the letters.
    pub set: Rc<Set>,
    /// A join's second list.
    pub partners: Vec<u32>,
    pub motifs: Vec<u64>,
    pub supports: Vec<u32>,
    pub weights: Vec<u64>,
    /// The FASTA reader's lengths, too.
    pub rows: Vec<u32>,
    /// The buffer for a new search and for the FASTA reader's letters, too.
    pub saved: Vec<u8>,
    pub budget: u64,
    pub motif: u64,
    pub first_row: u64,
    pub head: u16,
    pub low: u16,
    pub high: u16,
    pub value: Value,
    /// What a new search, a save or a recovery is passed for the profile instead
    /// of the value's: a number that is none's.
    pub no_profile: Option<u16>,
    /// The FASTA reader's cursor.
    pub at: u64,
    /// How many letters and lengths its tables hold already.
    pub used: u64,
    pub count: u64,
}

/// More bytes than any save has.
pub const MORE_THAN_A_SAVE: usize = 140;

impl Request {
    /// A call to which nothing is lent but the sequences, and for a new search a
    /// buffer with some room over.
    pub fn new(kind: Kind, set: &Rc<Set>, value: Value) -> Request {
        let room = match kind {
            Kind::Begin => MORE_THAN_A_SAVE,
            _ => 0,
        };
        Request {
            kind,
            set: Rc::clone(set),
            partners: Vec::new(),
            motifs: Vec::new(),
            supports: Vec::new(),
            weights: Vec::new(),
            rows: Vec::new(),
            saved: vec![7; room],
            budget: 0,
            motif: 0,
            first_row: 0,
            head: 0,
            low: 0,
            high: 0,
            value,
            no_profile: None,
            at: 0,
            used: 0,
            count: 0,
        }
    }
}
