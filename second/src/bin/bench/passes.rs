//! A Rust program that does the passes of the library's recovery: counts of ways
//! for the letters of each sequence, from a motif's last component to its first,
//! by a sliding sum. Safe Rust as one writes it for speed: slices that are
//! zipped, so that no index is checked, and a sliding sum whose stretches are
//! loops of their own.

use second::Component;

/// The distance from start to start that a gap range asks for at least, and
/// how many distances it allows.
fn range(behind: usize, next: &Component) -> (usize, usize) {
    let (low, high) = (usize::from(next.low), usize::from(next.high));
    (behind + low, high + 1 - low)
}

/// Whether a word stands at a place. Letter by letter: the words are too short
/// for a call of memcmp.
fn stands(word: &[u8], from_there: &[u8]) -> bool {
    word.len() <= from_there.len() && word.iter().zip(from_there).all(|(a, b)| a == b)
}

/// `ways` where a word stands, and else none. Where there are none its letters
/// are not looked at, as in the library.
fn cell(word: &[u8], from_there: &[u8], ways: u64) -> u64 {
    if ways > 0 && stands(word, from_there) {
        ways
    } else {
        0
    }
}

/// The ways of the last component: one where it stands.
fn last_ways(word: &[u8], sequence: &[u8], ways: &mut [u64]) {
    for (at, way) in ways.iter_mut().enumerate() {
        *way = cell(word, &sequence[at..], 1);
    }
}

/// The ways of a component before others, from theirs, by a sliding sum: over
/// the places where one comes and one goes, then those where none comes any
/// more. The places after have no way.
fn ways_before(
    word: &[u8],
    (distance, count): (usize, usize),
    sequence: &[u8],
    later: &[u64],
    ways: &mut [u64],
) {
    let goes = later.get(distance..).unwrap_or_default();
    let comes = goes.get(count..).unwrap_or_default();
    let (sliding, rest) = ways.split_at_mut(comes.len());
    let (emptying, empty) = rest.split_at_mut(goes.len() - comes.len());
    let mut sum: u64 = goes.iter().take(count).sum();
    for (at, (way, (comes, goes))) in sliding.iter_mut().zip(comes.iter().zip(goes)).enumerate() {
        *way = cell(word, &sequence[at..], sum);
        sum = sum + comes - goes;
    }
    for (at, (way, goes)) in (comes.len()..).zip(emptying.iter_mut().zip(&goes[comes.len()..])) {
        *way = cell(word, &sequence[at..], sum);
        sum -= goes;
    }
    empty.fill(0);
}

/// The ways of a motif's components from each place of a sequence, from the
/// last to the first. `each` gets those of each component.
pub fn all_ways(
    components: &[Component],
    word: &[u8],
    sequence: &[u8],
    ways: &mut Vec<u64>,
    later: &mut Vec<u64>,
    mut each: impl FnMut(usize, &[u64]),
) {
    let length = sequence.len();
    let mut rest = word;
    for (number, component) in components.iter().enumerate().rev() {
        let (before, part) = rest.split_at(rest.len() - usize::from(component.length));
        std::mem::swap(ways, later);
        match components.get(number + 1) {
            None => last_ways(part, sequence, &mut ways[..length]),
            Some(next) => {
                let range = range(part.len(), next);
                ways_before(part, range, sequence, &later[..length], &mut ways[..length]);
            }
        }
        each(number, &ways[..length]);
        rest = before;
    }
}
