//! The proved library, called as C calls it: the seven functions that
//! `include/tulfasheq.h` declares, and a safe function for each.
//!
//! It links `target/host/libtulfasheq.a`, which `rust/library.sh` makes.
//!
//! "A refused call sets *place (0 where the refusal tells no place), sets every
//! other number that it answers to 0, and leaves every array as it was; numbers
//! that a call moves on (*at, *used and *count of tulfasheq_fasta) stay. A call
//! that is not refused sets *place to 0." What this says of numbers is held to
//! in every call made here.
//!
//! "A call uses less than 1.5 MiB of stack", for which a thread's usual 2 MiB do.

#![deny(unsafe_op_in_unsafe_fn)]
#![warn(missing_docs)]

mod declared;
pub mod limits;
mod reader;
mod told;

pub use reader::Reader;
pub use told::{Leg, Recovered, Refusal, Search, Stop, Template};

/// A number that no call leaves behind, to be told in its place.
const UNTOLD: u64 = u64::MAX;

/// An answer: 0, or a refusal's number; and the other numbers told, which are
/// all 0 in a refusal.
fn answer(number: u64, place: u64, told: &[u64]) -> Result<(), Refusal> {
    if number == 0 {
        assert_eq!(place, 0, "the place told without a refusal");
        return Ok(());
    }
    assert!(matches!(number, 1..=17 | 19..=24), "refusal {number}");
    assert!(
        told.iter().all(|n| *n == 0),
        "told in refusal {number}: {told:?}"
    );
    let number = number as u8;
    Err(Refusal { number, place })
}

/// A new search, saved to the front of `saved`: the save's length.
pub fn begin(
    letters: &[u8],
    lengths: &[u32],
    template: Template,
    quorum: u64,
    saved: &mut [u8],
) -> Result<usize, Refusal> {
    let (mut place, mut size) = (UNTOLD, UNTOLD);
    // SAFETY: each pointer comes with its length from a slice that lives on,
    // and what is written is borrowed for this call alone.
    let number = unsafe {
        declared::tulfasheq_begin(
            letters.as_ptr(),
            letters.len(),
            lengths.as_ptr(),
            lengths.len(),
            template.profile,
            template.components,
            template.shape.as_ptr(),
            template.shape.len(),
            template.allowances.as_ptr(),
            template.allowances.len(),
            quorum,
            saved.as_mut_ptr(),
            saved.len(),
            &mut place,
            &mut size,
        )
    };
    answer(number, place, &[size])?;
    Ok(size as usize)
}

/// A leg of a saved search, which is saved again at its new place.
pub fn leg(
    letters: &[u8],
    lengths: &[u32],
    saved: &mut [u8],
    budget: u64,
    motifs: &mut [u64],
    supports: &mut [u32],
    weights: &mut [u64],
) -> Result<Leg, Refusal> {
    let (mut place, mut stop, mut steps, mut rows) = (UNTOLD, UNTOLD, UNTOLD, UNTOLD);
    // SAFETY: as above.
    let number = unsafe {
        declared::tulfasheq_leg(
            letters.as_ptr(),
            letters.len(),
            lengths.as_ptr(),
            lengths.len(),
            saved.as_mut_ptr(),
            saved.len(),
            budget,
            motifs.as_mut_ptr(),
            motifs.len(),
            supports.as_mut_ptr(),
            supports.len(),
            weights.as_mut_ptr(),
            weights.len(),
            &mut place,
            &mut stop,
            &mut steps,
            &mut rows,
        )
    };
    answer(number, place, &[stop, steps, rows])?;
    let stop = match stop {
        1 => Stop::Ended,
        2 => Stop::Spent,
        3 => Stop::Full,
        other => panic!("a leg that stopped for {other}"),
    };
    let rows = rows as usize;
    Ok(Leg { stop, steps, rows })
}

/// What a saved search is. As much of the shape as there is room for goes to
/// `shape`, and as many allowances to `allowances`.
pub fn restore(
    letters: &[u8],
    lengths: &[u32],
    saved: &[u8],
    shape: &mut [u16],
    allowances: &mut [u16],
) -> Result<Search, Refusal> {
    let mut place = UNTOLD;
    let mut told = Search {
        profile: u16::MAX,
        components: u16::MAX,
        quorum: UNTOLD,
        sequences: u32::MAX,
        total: u32::MAX,
        next_letters: u8::MAX,
        next_number: UNTOLD,
    };
    // SAFETY: as above.
    let number = unsafe {
        declared::tulfasheq_restore(
            letters.as_ptr(),
            letters.len(),
            lengths.as_ptr(),
            lengths.len(),
            saved.as_ptr(),
            saved.len(),
            &mut place,
            &mut told.profile,
            &mut told.components,
            shape.as_mut_ptr(),
            shape.len(),
            allowances.as_mut_ptr(),
            allowances.len(),
            &mut told.quorum,
            &mut told.sequences,
            &mut told.total,
            &mut told.next_letters,
            &mut told.next_number,
        )
    };
    answer(
        number,
        place,
        &[
            told.profile.into(),
            told.components.into(),
            told.quorum,
            told.sequences.into(),
            told.total.into(),
            told.next_letters.into(),
            told.next_number,
        ],
    )?;
    Ok(told)
}

/// The save of a search of this shape and these allowances, to the front of
/// `out`: its length.
pub fn save(
    letters: &[u8],
    lengths: &[u32],
    search: &Search,
    shape: &[u16],
    allowances: &[u16],
    out: &mut [u8],
) -> Result<usize, Refusal> {
    let (mut place, mut size) = (UNTOLD, UNTOLD);
    // SAFETY: as above.
    let number = unsafe {
        declared::tulfasheq_save(
            letters.as_ptr(),
            letters.len(),
            lengths.as_ptr(),
            lengths.len(),
            search.profile,
            search.components,
            shape.as_ptr(),
            shape.len(),
            allowances.as_ptr(),
            allowances.len(),
            search.quorum,
            search.sequences,
            search.total,
            search.next_letters,
            search.next_number,
            out.as_mut_ptr(),
            out.len(),
            &mut place,
            &mut size,
        )
    };
    answer(number, place, &[size])?;
    Ok(size as usize)
}

/// The occurrences of a motif, from row `first` of their list on, as rows of
/// a sequence's number and a start for each component.
pub fn recover(
    letters: &[u8],
    lengths: &[u32],
    template: Template,
    motif: u64,
    first: u64,
    out: &mut [u32],
) -> Result<Recovered, Refusal> {
    let (mut place, mut rows, mut length) = (UNTOLD, UNTOLD, UNTOLD);
    // SAFETY: as above.
    let number = unsafe {
        declared::tulfasheq_recover(
            letters.as_ptr(),
            letters.len(),
            lengths.as_ptr(),
            lengths.len(),
            template.profile,
            template.components,
            template.shape.as_ptr(),
            template.shape.len(),
            template.allowances.as_ptr(),
            template.allowances.len(),
            motif,
            first,
            out.as_mut_ptr(),
            out.len(),
            &mut place,
            &mut rows,
            &mut length,
        )
    };
    answer(number, place, &[rows, length])?;
    let rows = rows as usize;
    Ok(Recovered { rows, length })
}

/// The positions of the first list that have a partner in the second, to the
/// front of `out`: how many.
pub fn join(
    first: &[u32],
    second: &[u32],
    head: u16,
    low: u16,
    high: u16,
    out: &mut [u32],
) -> Result<usize, Refusal> {
    let (mut place, mut kept) = (UNTOLD, UNTOLD);
    // SAFETY: as above.
    let number = unsafe {
        declared::tulfasheq_join(
            first.as_ptr(),
            first.len(),
            second.as_ptr(),
            second.len(),
            head,
            low,
            high,
            out.as_mut_ptr(),
            out.len(),
            &mut place,
            &mut kept,
        )
    };
    answer(number, place, &[kept])?;
    Ok(kept as usize)
}
