//! What a call answers: what is told and every lent table afterwards, and what
//! the second program answers.

use super::convert::{byte, template};
use super::request::{Kind, Request, Value};
use crate::{Answer as Stop, Handed, Refusal};
use std::ops::Range;

pub use super::convert::{records_of, search, value_of};

/// How a call came out. A leg and the FASTA reader have several ways.
pub const REFUSED: u64 = 0;
pub const DONE: u64 = 1;
pub const SPENT: u64 = 2;
pub const FULL: u64 = 3;
pub const FILE_ENDED: u64 = 2;

/// What is told. What a call does not tell is 0.
#[derive(Clone, Debug, Default, PartialEq, Eq)]
pub struct Told {
    pub outcome: u64,
    pub refusal: u64,
    /// The refusal's place.
    pub place: u64,
    pub count: u64,
    /// A leg's rows, a recovery's length, or where the FASTA reader stands.
    pub total: u64,
    /// A record's name, as a part of its file.
    pub name: Range<usize>,
    pub search: Value,
}

#[derive(Clone, Debug, PartialEq, Eq)]
pub struct Answer {
    pub told: Told,
    pub motifs: Vec<u64>,
    pub supports: Vec<u32>,
    pub weights: Vec<u64>,
    pub rows: Vec<u32>,
    pub saved: Vec<u8>,
}

impl Answer {
    /// Nothing told yet, and every table as it is lent.
    pub fn lent(request: &Request) -> Answer {
        Answer {
            told: Told::default(),
            motifs: request.motifs.clone(),
            supports: request.supports.clone(),
            weights: request.weights.clone(),
            rows: request.rows.clone(),
            saved: request.saved.clone(),
        }
    }

    /// What the second program answers; to a leg, what it answers to that of
    /// the search value.
    pub fn expected(request: &Request) -> Answer {
        let mut answer = Answer::lent(request);
        answer.told = answer.call(request).unwrap_or_else(told_refusal);
        answer
    }

    /// What it answers to a leg of the search that the saved bytes hold: that is
    /// refused as their restore is, or goes on from there and is saved over
    /// them.
    pub fn of_saved(leg: &Request) -> Answer {
        let (letters, lengths) = (&leg.set.letters[..], &leg.set.lengths[..]);
        match crate::restore(letters, lengths, &leg.saved) {
            Ok(held) => {
                let mut answer = Answer::expected(&Request {
                    value: value_of(&held),
                    ..leg.clone()
                });
                let left = search(&answer.told.search);
                crate::save(letters, lengths, &left, &mut answer.saved)
                    .expect("what a leg gives is saved");
                answer
            }
            Err(refusal) => Answer {
                told: told_refusal(refusal),
                ..Answer::lent(leg)
            },
        }
    }

    fn call(&mut self, request: &Request) -> Result<Told, Refusal> {
        let (letters, lengths) = (&request.set.letters[..], &request.set.lengths[..]);
        let value = &request.value;
        if let Some(number) = request.no_profile {
            crate::profile_of(letters, lengths, value.count.into(), number)?;
        }
        Ok(match request.kind {
            Kind::Begin => {
                let begun = crate::begin(letters, lengths, &template(value), value.quorum)?;
                let bytes = crate::save(letters, lengths, &begun, &mut self.saved)?;
                told(DONE, bytes as u64, 0, &value_of(&begun))
            }
            Kind::Restore => {
                let restored = crate::restore(letters, lengths, &request.saved)?;
                told(DONE, 0, 0, &value_of(&restored))
            }
            Kind::Leg => {
                let leg = crate::leg(
                    letters,
                    lengths,
                    &search(value),
                    request.budget,
                    &mut self.motifs,
                    &mut self.supports,
                    &mut self.weights,
                );
                let outcome = match leg.answer {
                    Stop::Ended => DONE,
                    Stop::Spent => SPENT,
                    Stop::Full => FULL,
                    Stop::Refused(refusal) => return Err(refusal),
                };
                // The search comes back with another place and all else as
                // it was given, slots that its template does not count too.
                let moved = Value {
                    place: leg.search.place.letters,
                    number: leg.search.place.number,
                    ..*value
                };
                told(outcome, leg.steps, leg.rows as u64, &moved)
            }
            Kind::Save => {
                let bytes = crate::save(letters, lengths, &search(value), &mut self.saved)?;
                told(DONE, bytes as u64, 0, &Value::default())
            }
            Kind::Recover => {
                let rows = crate::recover(
                    letters,
                    lengths,
                    &template(value),
                    request.motif,
                    request.first_row,
                    &mut self.rows,
                )?;
                told(DONE, rows.rows as u64, rows.length, &Value::default())
            }
            Kind::Join => {
                let kept = crate::join(
                    lengths,
                    &request.partners,
                    byte(request.head),
                    request.low,
                    request.high,
                    &mut self.rows,
                )?;
                told(DONE, kept as u64, 0, &Value::default())
            }
            Kind::Fasta => {
                let handed = crate::next_record(
                    letters,
                    size(request.at),
                    &mut self.saved,
                    size(request.used),
                    &mut self.rows,
                    size(request.count),
                );
                told_handed(request.at, handed)
            }
        })
    }

    pub fn outcome(&self) -> u64 {
        self.told.outcome
    }

    pub fn count(&self) -> u64 {
        self.told.count
    }

    /// Where the FASTA reader stands.
    pub fn cursor(&self) -> u64 {
        self.told.total
    }

    /// The search that is told.
    pub fn search(&self) -> Value {
        self.told.search
    }

    /// The first thing in which this answer differs from another.
    pub fn difference(&self, other: &Answer) -> Option<String> {
        if self.told != other.told {
            let (told, expected) = (&self.told, &other.told);
            return Some(format!("what is told:\n{told:?}, and not\n{expected:?}"));
        }
        in_table("motifs", &self.motifs, &other.motifs)
            .or_else(|| in_table("supports", &self.supports, &other.supports))
            .or_else(|| in_table("weights", &self.weights, &other.weights))
            .or_else(|| in_table("rows", &self.rows, &other.rows))
            .or_else(|| in_table("saved bytes", &self.saved, &other.saved))
    }
}

fn in_table<T: PartialEq + std::fmt::Display>(
    name: &str,
    one: &[T],
    other: &[T],
) -> Option<String> {
    assert_eq!(one.len(), other.len(), "lists of different lengths");
    (0..one.len())
        .find(|at| one[*at] != other[*at])
        .map(|at| format!("{name} at {at}: {}, and not {}", one[at], other[at]))
}

pub fn told(outcome: u64, count: u64, total: u64, value: &Value) -> Told {
    Told {
        outcome,
        count,
        total,
        search: *value,
        ..Told::default()
    }
}

pub fn told_refusal(refusal: Refusal) -> Told {
    Told {
        outcome: REFUSED,
        refusal: refusal.number.into(),
        place: refusal.place,
        ..Told::default()
    }
}

/// What the FASTA reader tells, which stood at a cursor: where it stands then,
/// refused calls too.
pub fn told_handed(at: u64, handed: Result<Option<Handed>, Refusal>) -> Told {
    match handed {
        Ok(Some(record)) => Told {
            outcome: DONE,
            count: record.letters as u64,
            total: record.at as u64,
            name: record.name,
            ..Told::default()
        },
        Ok(None) => Told {
            outcome: FILE_ENDED,
            total: at,
            ..Told::default()
        },
        Err(refusal) => Told {
            total: at,
            ..told_refusal(refusal)
        },
    }
}

/// A cursor or a count of the FASTA reader as this machine counts bytes. More
/// than that is past every file and table.
pub fn size(n: u64) -> usize {
    usize::try_from(n).unwrap_or(usize::MAX)
}
