//! Search values of the library's as the second program has them, and back.

use super::request::{Slot, Value};
use crate::saved::records;
use crate::{Component, Place, Profile, Search, Template};

/// The second program's search as a value of the library's.
pub fn value_of(search: &Search) -> Value {
    let slots: Vec<Slot> = search
        .template
        .components
        .iter()
        .map(|c| Slot::new(u16::from(c.length), c.low, c.high).allowing(c.allowance))
        .collect();
    Value {
        profile: search.template.profile,
        quorum: search.quorum,
        sequences: search.sequences,
        letters: search.letters,
        place: search.place.letters,
        number: search.place.number,
        ..Value::of(&slots)
    }
}

/// A length as the second program holds it, in a byte. A longer one is told
/// as 255. Both are refused by 6; and the place rule (23), which a leg and a
/// save check before, finds K at least 255 either way, which no place, itself
/// a byte, exceeds, and deals all letters that are left out to that component.
/// So the two programs have to say the same.
pub fn byte(length: u16) -> u8 {
    u8::try_from(length).unwrap_or(u8::MAX)
}

/// The template's components. Where it counts more than there are slots for,
/// what stands in them is not looked at: that is refused by 5 first.
pub fn template(value: &Value) -> Template {
    let component = |slot: &Slot| Component {
        length: byte(slot.length),
        low: slot.low,
        high: slot.high,
        allowance: slot.allowance,
    };
    let mut components: Vec<Component> = value.slots.iter().map(component).collect();
    components.resize(value.count as usize, component(&Slot::default()));
    Template {
        profile: value.profile,
        components,
    }
}

pub fn search(value: &Value) -> Search {
    Search {
        template: template(value),
        quorum: value.quorum,
        sequences: value.sequences,
        letters: value.letters,
        place: Place {
            letters: value.place,
            number: value.number,
        },
    }
}

/// The bytes that a save of the value would have if it were not checked; none
/// where a number does not go into its record. What a save does not hold, slots
/// that are not counted and allowances of the exact profile, may be anything.
pub fn records_of(value: &Value) -> Option<Vec<u8>> {
    let goes = |number: u64, bits: u32| number >> bits == 0;
    let slots = value.slots.iter().take(value.count.into());
    let all = goes(u64::from(value.count) + 2, 8)
        && goes(value.quorum, 16)
        && goes(value.sequences.into(), 16)
        && slots.clone().all(|slot| goes(slot.length.into(), 8))
        && (value.profile == Profile::Exact
            || slots.clone().all(|slot| goes(slot.allowance.into(), 8)));
    all.then(|| records(&search(value)))
}
