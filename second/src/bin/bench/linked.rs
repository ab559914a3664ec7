//! The library, called as any Rust program would call it.

use crate::walk::{Place, Rows, Search, Went};

/// A search's shape, as the library takes it.
pub fn shape(search: &Search) -> Vec<u16> {
    let numbers = |c: &second::Component| [u16::from(c.length), c.low, c.high];
    search.components.iter().flat_map(numbers).collect()
}

/// Its allowances, as the library takes them.
pub fn allowances(search: &Search) -> Vec<u16> {
    search.components.iter().map(|c| c.allowance).collect()
}

/// The saved bytes of a search at a place.
pub fn saved_at(search: &Search, place: Place) -> Vec<u8> {
    let told = tulfasheq::Search {
        profile: search.profile.number(),
        components: search.components.len() as u16,
        quorum: search.quorum,
        sequences: search.set.lengths.len() as u32,
        total: search.set.letters.len() as u32,
        next_letters: place.letters as u8,
        next_number: place.number,
    };
    let mut saved = vec![0; 16 * (search.components.len() + 2)];
    let (letters, lengths) = (&search.set.letters, &search.set.lengths);
    let (shape, allowances) = (shape(search), allowances(search));
    let size = tulfasheq::save(letters, lengths, &told, &shape, &allowances, &mut saved);
    size.expect("a candidate");
    saved
}

/// A leg from a saved place on. The save is a copy: `saved` stays.
pub fn leg(search: &Search, saved: &[u8], budget: u64, tables: &mut Rows) -> Went {
    let (letters, lengths) = (&search.set.letters, &search.set.lengths);
    let mut saved = saved.to_vec();
    let leg = tulfasheq::leg(
        letters,
        lengths,
        &mut saved,
        budget,
        &mut tables.motifs,
        &mut tables.supports,
        &mut tables.weights,
    )
    .expect("a saved search");
    // The place record is the last one: its letters, and its number.
    let record = &saved[saved.len() - 16..];
    let number: [u8; 8] = record[8..].try_into().expect("eight bytes");
    Went {
        stop: leg.stop,
        steps: leg.steps,
        rows: leg.rows,
        place: Place {
            letters: usize::from(record[1]),
            number: u64::from_le_bytes(number),
        },
    }
}

/// A recovery from row 0 on.
pub fn recover(search: &Search, motif: u64, out: &mut [u32]) -> (usize, u64) {
    let template = tulfasheq::Template {
        profile: search.profile.number(),
        components: search.components.len() as u16,
        shape: &shape(search),
        allowances: &allowances(search),
    };
    let (letters, lengths) = (&search.set.letters, &search.set.lengths);
    let recovered =
        tulfasheq::recover(letters, lengths, template, motif, 0, out).expect("a motif's number");
    (recovered.rows, recovered.length)
}
