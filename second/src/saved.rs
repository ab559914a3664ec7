//! "A saved search": "Records of 16 bytes, no header, low byte first, k + 2
//! records."

use crate::place::Place;
use crate::profile::Profile;
use crate::refusal::Refusal;
use crate::search::Search;
use crate::sequences::SequenceSet;
use crate::template::{Component, Template};

/// One record.
struct Record([u8; Record::BYTES]);

impl Record {
    /// "Records of 16 bytes"
    const BYTES: usize = 16;
    /// "k + 2 records": the size and place records beside the components.
    const BESIDE_COMPONENTS: usize = 2;
    /// Byte 0 of the size record.
    const SIZE: u8 = 1;
    /// Byte 0 of a component record.
    const COMPONENT: u8 = 2;
    /// Byte 0 of the place record.
    const PLACE: u8 = 3;

    /// A record of this kind; "unnamed bytes are 0".
    fn new(kind: u8) -> Record {
        let mut bytes = [0; Record::BYTES];
        bytes[0] = kind;
        Record(bytes)
    }

    /// Writes a number "low byte first" into the bytes from `first` to `last`.
    fn put(&mut self, first: usize, last: usize, number: u64) {
        let mut left = number;
        for byte in &mut self.0[first..=last] {
            *byte = (left % 256) as u8;
            left /= 256;
        }
    }

    /// Reads the bytes from `first` to `last` as a number, "low byte first".
    fn number(&self, first: usize, last: usize) -> u64 {
        self.0[first..=last]
            .iter()
            .rev()
            .fold(0, |number, byte| number * 256 + u64::from(*byte))
    }
}

/// "size | 0: 1; 1: number of records; 2-3 quorum; 4-5 number of sequences;
/// 6-7 K; 8-11 letters in all"; "byte 12 is 0 or 1 for the profile"
fn size_record(search: &Search) -> Record {
    let mut record = Record::new(Record::SIZE);
    let records = search.template.components.len() + Record::BESIDE_COMPONENTS;
    record.put(1, 1, records as u64);
    record.put(2, 3, search.quorum);
    record.put(4, 5, u64::from(search.sequences));
    record.put(6, 7, search.template.letters_in_all());
    record.put(8, 11, u64::from(search.letters));
    record.put(12, 12, u64::from(search.template.profile.number()));
    record
}

/// "component, one each | 0: 2; 1: its number from 1; 2: length; 4-5 l;
/// 6-7 u"; "a component's byte 3 is the allowance", which was checked to be
/// at most the length. The exact profile has none: its saves are as they were.
fn component_record(number: u64, component: &Component, profile: Profile) -> Record {
    let mut record = Record::new(Record::COMPONENT);
    record.put(1, 1, number);
    record.put(2, 2, u64::from(component.length));
    record.put(4, 5, u64::from(component.low));
    record.put(6, 7, u64::from(component.high));
    if profile == Profile::Mixed {
        record.put(3, 3, u64::from(component.allowance));
    }
    record
}

/// "place | 0: 3; 1: letters of the next candidate; 8-15 its number"
fn place_record(place: &Place) -> Record {
    let mut record = Record::new(Record::PLACE);
    record.put(1, 1, u64::from(place.letters));
    record.put(8, 15, place.number);
    record
}

/// All records of a search, one after another.
pub(crate) fn records(search: &Search) -> Vec<u8> {
    let mut bytes = Vec::new();
    bytes.extend(size_record(search).0);
    for (number, component) in (1..).zip(&search.template.components) {
        bytes.extend(component_record(number, component, search.template.profile).0);
    }
    bytes.extend(place_record(&search.place).0);
    bytes
}

/// "A save answers its length in bytes." "A leg or a save checks the search
/// value it is given by restore's order without 10, and a save checks 17
/// last." "Past the last thing that a save, recovery or join writes, its
/// buffer stays."
pub fn save(
    letters: &[u8],
    lengths: &[u32],
    search: &Search,
    out: &mut [u8],
) -> Result<usize, Refusal> {
    let set = SequenceSet::lent(letters, lengths)?;
    search.check(&set)?;
    let bytes = records(search);
    match out.get_mut(..bytes.len()) {
        Some(written) => {
            written.copy_from_slice(&bytes);
            Ok(bytes.len())
        }
        None => Err(Refusal::plain(Refusal::BUFFER)),
    }
}

/// "Restore: 1 to 4, 10, 5, 11, 6, 7, 8, 12, 9, 13", and "21 to 23 come after
/// 11 in that order", and 24 "after 8".
pub fn restore(letters: &[u8], lengths: &[u32], bytes: &[u8]) -> Result<Search, Refusal> {
    let set = SequenceSet::lent(letters, lengths)?;
    let records = cut_into_records(bytes)?;
    let search = read_records(&records)?;
    search.check(&set)?;
    Ok(search)
}

/// Refusal 10: "saved bytes fewer than 16, record count below 2, or length
/// not 16 times the count".
fn cut_into_records(bytes: &[u8]) -> Result<Vec<Record>, Refusal> {
    let count = match bytes.get(1) {
        Some(count) if bytes.len() >= Record::BYTES => *count as usize,
        _ => return Err(Refusal::plain(Refusal::SAVED_LENGTH)),
    };
    if count < Record::BESIDE_COMPONENTS || bytes.len() != Record::BYTES * count {
        return Err(Refusal::plain(Refusal::SAVED_LENGTH));
    }
    let mut records = Vec::new();
    for chunk in bytes.chunks_exact(Record::BYTES) {
        let mut record = Record([0; Record::BYTES]);
        record.0.copy_from_slice(chunk);
        records.push(record);
    }
    Ok(records)
}

/// Reads what the records say. Refuses 5 ("number of components", the record
/// count less 2), then 11, 21 and 22. The place's rule, 23, is the first that
/// is checked with the search value after these.
fn read_records(records: &[Record]) -> Result<Search, Refusal> {
    let (size, components, place) = match records {
        [size, components @ .., place] => (size, components, place),
        _ => return Err(Refusal::plain(Refusal::SAVED_LENGTH)),
    };
    let profile = read_profile(size);
    let search = Search {
        template: Template {
            profile,
            components: components
                .iter()
                .map(|record| read_component(record, profile))
                .collect(),
        },
        quorum: size.number(2, 3),
        sequences: size.number(4, 5) as u32,
        letters: size.number(8, 11) as u32,
        place: Place {
            letters: place.number(1, 1) as u8,
            number: place.number(8, 15),
        },
    };
    search.template.check_number_of_components()?;
    check_layout(records, profile)?;
    if size.number(6, 7) != search.template.letters_in_all() {
        // "K is not the sum", "with its record": K stands in the size record,
        // which is the first.
        return Err(Refusal::at(Refusal::NOT_THE_SUM, 0));
    }
    Ok(search)
}

/// "The size record's byte 12 is 0 or 1 for the profile": only 1 means the
/// mixed one. What is neither is refused before the profile matters.
fn read_profile(size: &Record) -> Profile {
    if size.number(12, 12) == u64::from(Profile::Mixed.number()) {
        Profile::Mixed
    } else {
        Profile::Exact
    }
}

/// "2: length; 4-5 l; 6-7 u"; "a component's byte 3 is the allowance", in the
/// exact profile 0.
fn read_component(record: &Record, profile: Profile) -> Component {
    Component {
        length: record.number(2, 2) as u8,
        low: record.number(4, 5) as u16,
        high: record.number(6, 7) as u16,
        allowance: match profile {
            Profile::Exact => 0,
            Profile::Mixed => record.number(3, 3) as u16,
        },
    }
}

/// What the paper's table asks of one byte of a record.
enum Asked {
    /// The record's kind or a component's number, which is this one.
    Exactly(usize),
    /// A byte of a number that the table names, which may be any.
    Any,
    /// "Unnamed bytes are 0."
    Zero,
    /// "0 or 1 for the profile, else 21"
    ZeroOrOne,
}

/// What the table asks of a byte in the record of this number, counted from 0,
/// of so many records, in a save of this profile.
fn asked(records: usize, record: usize, byte: usize, profile: Profile) -> Asked {
    if record == 0 {
        // "size | 0: 1; 1: number of records; 2-3 quorum; 4-5 number of
        // sequences; 6-7 K; 8-11 letters in all"; "byte 12 is 0 or 1 for the
        // profile"
        match byte {
            0 => Asked::Exactly(1),
            1..=11 => Asked::Any,
            12 => Asked::ZeroOrOne,
            _ => Asked::Zero,
        }
    } else if record < records - 1 {
        // "component, one each | 0: 2; 1: its number from 1; 2: length;
        // 4-5 l; 6-7 u": the first component's record comes after the size
        // record, so that the two countings say the same. "A component's
        // byte 3 is the allowance": in the exact profile it is unnamed.
        match byte {
            0 => Asked::Exactly(2),
            1 => Asked::Exactly(record),
            2 | 4..=7 => Asked::Any,
            3 if profile == Profile::Mixed => Asked::Any,
            _ => Asked::Zero,
        }
    } else {
        // "place | 0: 3; 1: letters of the next candidate; 8-15 its number"
        match byte {
            0 => Asked::Exactly(3),
            1 | 8..=15 => Asked::Any,
            _ => Asked::Zero,
        }
    }
}

/// "11 stays for a wrong kind or component number, and now tells the record's
/// number from 0"; "21 a byte that must be 0 is not"; "21 to 23 come after 11
/// in that order, each with its record". Every byte of every record is judged
/// by itself; of all that is wrong the lowest number is given, and of several
/// records with it the first.
fn check_layout(records: &[Record], profile: Profile) -> Result<(), Refusal> {
    let mut wrong = Vec::new();
    for (number, record) in records.iter().enumerate() {
        for (at, byte) in record.0.iter().enumerate() {
            let refusal = match asked(records.len(), number, at, profile) {
                Asked::Exactly(right) if usize::from(*byte) != right => Refusal::RECORD,
                Asked::Zero if *byte != 0 => Refusal::UNNAMED_BYTE,
                Asked::ZeroOrOne if *byte > 1 => Refusal::UNNAMED_BYTE,
                _ => continue,
            };
            wrong.push(Refusal::at(refusal, number as u64));
        }
    }
    match wrong.iter().min_by_key(|told| (told.number, told.place)) {
        Some(first) => Err(*first),
        None => Ok(()),
    }
}
