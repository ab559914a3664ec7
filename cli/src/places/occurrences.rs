//! The occurrences of motifs, laid end to end: the whole list of the first
//! motif, then that of the next.

use super::format::Occurrence;
use super::narrow::Narrowed;
use crate::counted::{grouped, of};
use crate::failure::{Answer, Failure};
use crate::progress::Progress;
use crate::sequences::Sequences;
use crate::sum::Sum;
use crate::template::Template;

/// The most rows that are asked of the library at once. Each time it counts
/// all of a motif's occurrences first. All starts of one component fit.
const PAGE: usize = library::limits::LETTERS;

/// The most characters that show how far it is.
const SHOWN: usize = 29;

/// The occurrences of motifs in sequences.
pub struct Occurrences<'a> {
    pub sequences: &'a Sequences,
    pub template: &'a Template,
    pub motifs: Vec<u64>,
    /// How often each of them occurs, where that is known before.
    pub counts: Option<Vec<u64>>,
}

impl Occurrences<'_> {
    /// A sum of all that the whole list hangs on: the records with their
    /// names, the template and the motifs.
    pub fn sum(&self) -> Sum {
        let mut sum = self.sequences.sum();
        for number in 1..=self.sequences.lengths.len() as u32 {
            sum = sum.and(self.sequences.name(number)).and(b"\n");
        }
        sum = sum.and(self.template.text.as_bytes()).and(b"\n");
        let mut spelled = self.template.spelled();
        for motif in &self.motifs {
            sum = sum.and(spelled.to(*motif)).and(b"\n");
        }
        sum
    }

    /// The first motif that has rows from one on, and the rows of those before
    /// it. Where it is not known how often they occur, it is the first of all.
    fn first(&self, from: u128) -> (usize, u128) {
        let mut before = 0;
        for (motif, count) in self.counts.iter().flatten().enumerate() {
            let after = before + u128::from(*count);
            if after > from {
                return (motif, before);
            }
            before = after;
        }
        (self.counts.as_ref().map_or(0, Vec::len), before)
    }

    /// Hands out so many rows from one on, a page at a time. Where there are
    /// fewer than that one is the number of, nothing is handed out, and it is
    /// refused. A motif is counted only when its turn comes.
    pub fn pages(
        &self,
        from: u64,
        rows: u64,
        progress: &mut Progress,
        mut hand_out: impl FnMut(&mut dyn Iterator<Item = Occurrence>) -> Answer<()>,
    ) -> Answer<()> {
        let (sequences, template) = (self.sequences, self.template);
        let width = template.components.len() + 1;
        let mut room = vec![0; PAGE * width];
        let mut narrowed = Narrowed::new(sequences, template);
        let mut spelled = template.spelled();
        let from = u128::from(from);
        // The rows of the motifs before, of which there may be more than 64
        // bits hold, and those still to be handed out.
        let (begin, mut before) = self.first(from);
        let mut left = rows;
        for (number, motif) in self.motifs.iter().enumerate().skip(begin) {
            if before >= from && left == 0 {
                break;
            }
            if progress.due() {
                progress.show(&how_far(number, self.motifs.len()));
            }
            let spelled = spelled.to(*motif);
            narrowed.to(*motif, &mut room)?;
            let mut first = from.saturating_sub(before) as u64;
            let mut length = u64::MAX;
            let count = self.counts.as_ref().map(|counts| counts[number]);
            if first > 0 || count.is_some() && number == begin {
                length = narrowed.recover(0, &mut [])?.length;
                check(spelled, count, length)?;
            }
            while first < length {
                let most = left.min(PAGE as u64) as usize * width;
                let found = narrowed.recover(first, &mut room[..most])?;
                length = found.length;
                let rows = room[..found.rows * width].chunks_exact(width);
                let mut page =
                    rows.zip(before + u128::from(first)..)
                        .map(|(row, number)| Occurrence {
                            row: number,
                            motif: spelled,
                            name: sequences.name(row[0]),
                            sequence: row[0],
                            starts: &row[1..],
                            components: &template.components,
                        });
                hand_out(&mut page)?;
                first += found.rows as u64;
                left -= found.rows as u64;
                if left == 0 {
                    break;
                }
            }
            before += u128::from(length);
        }
        if from > before {
            return Err(Failure::refused(format!(
                "tulfasheq: --from {} is above the list's length: the list has {} (refusal 15)",
                grouped(from as u64),
                of(before as u64, "row")
            )));
        }
        Ok(())
    }
}

/// Refuses a motif that does not occur as often as its table says: by the
/// table's numbers the rows before it were counted.
fn check(motif: &[u8], told: Option<u64>, found: u64) -> Answer<()> {
    match told {
        Some(told) if told != found => Err(Failure::refused(format!(
            "tulfasheq: {} occurs {}, and its table says {}: the table was changed, and its numbers do not tell where row --from stands",
            String::from_utf8_lossy(motif),
            of(found, "time"),
            grouped(told)
        ))),
        _ => Ok(()),
    }
}

/// How many motifs are done.
fn how_far(done: usize, all: usize) -> String {
    let numbers = format!("{} of {}", grouped(done as u64), grouped(all as u64));
    let words = format!("{numbers} motifs");
    if words.len() > SHOWN {
        numbers
    } else {
        words
    }
}

#[cfg(test)]
mod tests {
    use super::{how_far, SHOWN};

    #[test]
    fn how_far_it_is_fits_a_narrow_terminal() {
        assert_eq!(how_far(12_345, 100_000), "12,345 of 100,000 motifs");
        for all in [9, 1_234_567, 12_345_678, 999_999_999] {
            assert!(how_far(all, all).len() <= SHOWN, "{all}");
        }
    }
}
