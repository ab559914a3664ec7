//! The positional join.

use crate::refusal::Refusal;
use crate::sequences::SequenceSet;
use crate::template::{component_length_is_right, gap_range_is_right};

/// Refusal 16: "join list not strictly rising, or a position outside 1 to
/// 65,536".
fn list_is_right(list: &[u32]) -> bool {
    let rising = list.windows(2).all(|pair| pair[0] < pair[1]);
    let within = |position: &u32| (1..=SequenceSet::MOST_LETTERS).contains(&(*position as usize));
    rising && list.iter().all(within)
}

/// "The join takes two lists of positions, a head length and a gap range. It
/// writes those positions of the first list that have at least one partner
/// in the second within the range, in order, and answers their number."
///
/// "Join: 6 for a head outside 1 to 12 and 8 (place 1 both), 16, 17."
pub fn join(
    first: &[u32],
    second: &[u32],
    head: u8,
    low: u16,
    high: u16,
    out: &mut [u32],
) -> Result<usize, Refusal> {
    if !component_length_is_right(head) {
        return Err(Refusal::at(Refusal::COMPONENT_LENGTH, 1));
    }
    if !gap_range_is_right(low, high) {
        return Err(Refusal::at(Refusal::GAP_RANGE, 1));
    }
    if !list_is_right(first) || !list_is_right(second) {
        return Err(Refusal::plain(Refusal::JOIN_LIST));
    }
    if out.len() < first.len() {
        return Err(Refusal::plain(Refusal::BUFFER));
    }

    let mut in_second = vec![false; SequenceSet::MOST_LETTERS + 1];
    for position in second {
        in_second[*position as usize] = true;
    }
    let has_partner = |position: u32| {
        (low..=high).any(|gap| {
            let partner = position as usize + head as usize + gap as usize;
            in_second.get(partner).copied().unwrap_or(false)
        })
    };
    let mut written = 0;
    for position in first {
        if has_partner(*position) {
            out[written] = *position;
            written += 1;
        }
    }
    Ok(written)
}
