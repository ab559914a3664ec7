//! What came up in the calls that were made: how often each kind of call came
//! out in each way, in each profile, and where it was passed a number that is
//! none's. All that can come about has to.

use super::answer::{Answer, REFUSED};
use super::request::{Kind, Request, Value};
use crate::{Place, Profile};
use std::collections::BTreeMap;
use std::fmt;
use std::ops::RangeInclusive;

use Profile::{Exact, Mixed};

/// How each call can come out, and the refusals that it can give. In the mixed
/// profile each can also give 24. A leg is one of saved bytes.
const ANSWERS: [(Kind, &[u64], &[u64]); 7] = [
    (Kind::Begin, &[1], &[1, 2, 3, 4, 5, 6, 7, 8, 9, 17]),
    (Kind::Leg, &[1, 2, 3], &OF_SAVED),
    (
        Kind::Save,
        &[1],
        &[1, 2, 3, 4, 5, 6, 7, 8, 9, 12, 13, 17, 23],
    ),
    (Kind::Restore, &[1], &OF_SAVED),
    (Kind::Recover, &[1], &[1, 2, 3, 4, 5, 6, 7, 8, 14, 15]),
    (Kind::Join, &[1], &[6, 8, 16, 17]),
    (Kind::Fasta, &[1, 2], &[4, 19, 20]),
];

const OF_SAVED: [u64; 16] = [1, 2, 3, 4, 5, 6, 7, 8, 9, 10, 11, 12, 13, 21, 22, 23];

/// What a number that is no profile's can come to, and the calls that are passed
/// one.
const NO_PROFILE: [u64; 6] = [1, 2, 3, 4, 5, 21];
const PASSED_ONE: [Kind; 3] = [Kind::Begin, Kind::Save, Kind::Recover];

/// The profiles in which a call is made. A join and the FASTA reader have none,
/// and are counted with the exact one.
fn profiles(kind: Kind) -> &'static [Profile] {
    match kind {
        Kind::Join | Kind::Fasta => &[Exact],
        _ => &[Exact, Mixed],
    }
}

/// The refusals that tell a record, and the records from 0 that each kind of
/// call can tell: of saves of one to six components, whose place record is
/// the third to the eighth.
const RECORDS: [(Kind, u64, RangeInclusive<u64>); 9] = [
    (Kind::Leg, 11, 0..=7),
    (Kind::Leg, 21, 0..=7),
    (Kind::Leg, 22, 0..=0),
    (Kind::Leg, 23, 2..=7),
    (Kind::Save, 23, 2..=7),
    (Kind::Restore, 11, 0..=7),
    (Kind::Restore, 21, 0..=7),
    (Kind::Restore, 22, 0..=0),
    (Kind::Restore, 23, 2..=7),
];

/// Why a mixed place breaks its rule, or a number is no mixed motif's: the
/// first that applies.
#[derive(Clone, Copy, Debug, PartialEq, Eq, PartialOrd, Ord)]
enum Why {
    Letters,
    Number,
    Digit,
    Allowance,
}

const WHY: [Why; 4] = [Why::Letters, Why::Number, Why::Digit, Why::Allowance];

/// The calls that see to it. A recovery's number has as many letters as motifs
/// have.
const REASONS: [(Kind, u64, &[Why]); 4] = [
    (Kind::Leg, 23, &WHY),
    (Kind::Save, 23, &WHY),
    (Kind::Restore, 23, &WHY),
    (
        Kind::Recover,
        14,
        &[Why::Number, Why::Digit, Why::Allowance],
    ),
];

impl fmt::Display for Why {
    fn fmt(&self, out: &mut fmt::Formatter) -> fmt::Result {
        out.write_str(match self {
            Why::Letters => "too many letters",
            Why::Number => "number too large",
            Why::Digit => "digit 14 or 15",
            Why::Allowance => "over the allowance",
        })
    }
}

/// The profile that a request is in: that of its search value, or of its saved
/// bytes, as the size record tells it; none where another number is passed.
fn profile(request: &Request) -> Option<Profile> {
    match request.kind {
        Kind::Leg | Kind::Restore if request.saved.get(12) == Some(&1) => Some(Mixed),
        Kind::Leg | Kind::Restore | Kind::Join | Kind::Fasta => Some(Exact),
        _ if request.no_profile.is_some() => None,
        _ => Some(request.value.profile),
    }
}

/// The number that a profile is counted by; 2 is none.
fn number(profile: Option<Profile>) -> u16 {
    profile.map_or(2, Profile::number)
}

/// The part of a search value that some saved bytes hold whose place breaks its
/// rule: lengths, allowances and the place.
fn held(bytes: &[u8]) -> Value {
    let mut value = Value {
        profile: Mixed,
        count: bytes.len() as u16 / 16 - 2,
        ..Value::default()
    };
    let records = bytes.chunks(16);
    for (slot, record) in value.slots.iter_mut().zip(records.clone().skip(1)) {
        (slot.length, slot.allowance) = (record[2].into(), record[3].into());
    }
    if let Some(place) = records.last() {
        value.place = place[1];
        value.number = u64::from_le_bytes(place[8..].try_into().expect("eight bytes"));
    }
    value
}

/// Why the place of a mixed search value breaks its rule.
fn why(value: &Value) -> Why {
    let letters = u64::from(value.place);
    if letters > value.letters_in_all() {
        return Why::Letters;
    }
    if letters < 16 && value.number >> (4 * letters) > 0 {
        return Why::Number;
    }
    let place = Place {
        letters: value.place,
        number: value.number,
    };
    match place.values(Mixed).iter().any(|digit| *digit > 13) {
        true => Why::Digit,
        false => Why::Allowance,
    }
}

/// How often each kind of call came out in each way, in each profile, how often
/// it gave each refusal, by its number, how often with each place, where that is
/// a record, and for which reason, where there are several.
#[derive(Default)]
pub struct Seen {
    outcomes: BTreeMap<(Kind, u16, u64), u64>,
    refusals: BTreeMap<(Kind, u16, u64), u64>,
    records: BTreeMap<(Kind, u16, u64, u64), u64>,
    reasons: BTreeMap<(Kind, Why), u64>,
}

impl Seen {
    pub fn count(&mut self, request: &Request, answer: &Answer) {
        let kind = request.kind;
        let profile = profile(request);
        let of = (kind, number(profile));
        if answer.outcome() != REFUSED {
            let outcome = (of.0, of.1, answer.outcome());
            *self.outcomes.entry(outcome).or_default() += 1;
            return;
        }
        let refusal = answer.told.refusal;
        *self.refusals.entry((of.0, of.1, refusal)).or_default() += 1;
        if let 11 | 21..=23 = refusal {
            let record = (of.0, of.1, refusal, answer.told.place);
            *self.records.entry(record).or_default() += 1;
        }
        if profile == Some(Mixed) && (refusal == 23 || refusal == 14) {
            let value = match request.kind {
                Kind::Leg | Kind::Restore => held(&request.saved),
                Kind::Recover => Value {
                    place: request.value.letters_in_all() as u8,
                    number: request.motif,
                    ..request.value
                },
                _ => request.value,
            };
            *self.reasons.entry((kind, why(&value))).or_default() += 1;
        }
    }

    /// A line for each kind of call and profile, and one for each of its
    /// refusals that tells a record or has several reasons; or what never came
    /// up.
    pub fn told(&self) -> Result<Vec<String>, String> {
        let mut lines = Vec::new();
        for (kind, outcomes, refusals) in ANSWERS {
            for profile in profiles(kind) {
                let which = format!("{kind:?}, {profile:?}");
                let of = |what| (kind, profile.number(), what);
                let outcome = |what| self.outcomes.get(&of(what)).copied();
                let outcomes = counts(&which, "outcome", outcomes.iter().copied(), outcome)?;
                let also = (*profile == Mixed).then_some(24);
                let expected = refusals.iter().copied().chain(also);
                let refusal = |what| self.refusals.get(&of(what)).copied();
                let refusals = counts(&which, "refusal", expected, refusal)?;
                lines.push(format!("{which}, {outcomes}; {refusals}"));
            }
        }
        for kind in PASSED_ONE {
            let which = format!("{kind:?}, a number that is no profile's,");
            let of = |what| (kind, number(None), what);
            let refusal = |what| self.refusals.get(&of(what)).copied();
            let refusals = counts(&which, "refusal", NO_PROFILE.into_iter(), refusal)?;
            lines.push(format!("{which} {refusals}"));
        }
        for (kind, refusal, records) in RECORDS {
            for profile in profiles(kind) {
                let of = |record| (kind, profile.number(), refusal, record);
                let count = |record| self.records.get(&of(record)).copied();
                let which = format!("{kind:?}, {profile:?}, refusal {refusal},");
                let records = counts(&which, "record", records.clone(), count)?;
                lines.push(format!("{which} {records}"));
            }
        }
        for (kind, refusal, reasons) in REASONS {
            let count = |why| self.reasons.get(&(kind, why)).copied();
            let which = format!("{kind:?}, Mixed, refusal {refusal},");
            let reasons = counts(&which, "reason", reasons.iter().copied(), count)?;
            lines.push(format!("{which} {reasons}"));
        }
        Ok(lines)
    }
}

/// The counts of what has to come up; or what did not.
fn counts<T: Copy + fmt::Display>(
    which: &str,
    name: &str,
    expected: impl Iterator<Item = T>,
    count: impl Fn(T) -> Option<u64>,
) -> Result<String, String> {
    let counts: Result<Vec<String>, String> = expected
        .map(|what| match count(what) {
            Some(count) => Ok(format!("{what}: {count}")),
            None => Err(format!("{which} never came to {name} {what}")),
        })
        .collect();
    Ok(format!("by {name} {}", counts?.join(", ")))
}
