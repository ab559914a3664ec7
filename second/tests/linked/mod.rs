//! What the tests of the linked library share: the paper's set E, its template
//! N[0,1]N in both profiles, and searches of it; and requests made of it.

#![allow(dead_code)]

pub mod asked;

use second::requests::request::{Slot, Value};
use tulfasheq::{begin, leg, Leg, Refusal, Search, Stop, Template};

/// ACGTA, CAGGT, AT.
pub const LETTERS: &[u8] = b"ACGTACAGGTAT";
pub const LENGTHS: &[u32] = &[5, 5, 2];

/// N[0,1]N; in the mixed profile with a mixed letter in the second component.
pub const SHAPE: [u16; 6] = [1, 0, 0, 1, 0, 1];
pub const EXACT: Template = Template::exact(2, &SHAPE);
pub const MIXED: Template = Template {
    profile: 1,
    allowances: &[0, 1],
    ..EXACT
};

/// A search of that template over E at a place.
pub fn at(template: Template, quorum: u64, next_letters: u8, next_number: u64) -> Search {
    Search {
        profile: template.profile,
        components: template.components,
        quorum,
        sequences: 3,
        total: 12,
        next_letters,
        next_number,
    }
}

pub fn refused(number: u8, place: u64) -> Refusal {
    Refusal { number, place }
}

/// A refusal of the library's, as the second program tells it: the two share no
/// type.
pub fn as_second(refusal: Refusal) -> second::Refusal {
    second::Refusal::at(refusal.number, refusal.place)
}

/// The bytes of a new search over E, with its length told.
pub fn begun(template: Template, quorum: u64) -> Vec<u8> {
    let mut saved = vec![0xEE; 128];
    let size = begin(LETTERS, LENGTHS, template, quorum, &mut saved).unwrap();
    assert_eq!(size, 64);
    assert!(saved[size..].iter().all(|byte| *byte == 0xEE));
    saved.truncate(size);
    saved
}

/// The bytes of E's search after 4 steps at quorum 2, and of the mixed one after
/// 8 at quorum 3: the last is the first motif's, AG's or AK's.
pub fn walked(template: Template) -> Vec<u8> {
    let (quorum, steps, row) = match template.profile {
        0 => (2, 4, (2, 2, 3)),
        _ => (3, 8, (6, 3, 4)),
    };
    let mut saved = begun(template, quorum);
    let (mut motifs, mut supports, mut weights) = ([9; 2], [9; 2], [9; 2]);
    let (m, s, w) = (&mut motifs[..], &mut supports[..], &mut weights[..]);
    let told = leg(LETTERS, LENGTHS, &mut saved, steps, m, s, w).unwrap();
    let (stop, rows) = (Stop::Spent, 1);
    assert_eq!(told, Leg { stop, steps, rows });
    assert_eq!((motifs[0], supports[0], weights[0]), row);
    assert_eq!((motifs[1], supports[1], weights[1]), (9, 9, 9));
    saved
}

/// The numbers of a value's slots as the calls take them.
pub fn shape(value: &Value) -> Vec<u16> {
    let numbers = |slot: &Slot| [slot.length, slot.low, slot.high];
    value.slots.iter().flat_map(numbers).collect()
}

pub fn allowances(value: &Value) -> Vec<u16> {
    value.slots.iter().map(|slot| slot.allowance).collect()
}
