//! An even plainer enumeration, which works on letters and tries every tuple.

use super::{letters_of, Lent, Row};
use second::Template;

/// Whether a sequence's letter is one that a motif's letter stands for.
fn fits((there, letter): (char, char)) -> bool {
    let bases = match letter {
        'R' => "AG",
        'Y' => "CT",
        'K' => "GT",
        'M' => "AC",
        'S' => "CG",
        'W' => "AT",
        'B' => "CGT",
        'D' => "AGT",
        'H' => "ACT",
        'V' => "ACG",
        single => return there == single,
    };
    bases.contains(there)
}

/// All occurrences of a prefix, by trying every tuple of positions in every
/// sequence, in the paper's order.
pub fn naive_occurrences(lent: &Lent, template: &Template, prefix: &str) -> Vec<Vec<u32>> {
    let mut parts: Vec<(&str, i64, i64)> = Vec::new();
    let mut left = prefix;
    for component in &template.components {
        if left.is_empty() {
            break;
        }
        let (part, later) = left.split_at(left.len().min(component.length as usize));
        parts.push((part, i64::from(component.low), i64::from(component.high)));
        left = later;
    }
    let mut rows = Vec::new();
    for (index, sequence) in lent.sequences().iter().enumerate() {
        let positions = sequence.len();
        let tuples = positions.pow(parts.len() as u32);
        for tuple in 0..tuples {
            let mut starts = Vec::new();
            let mut left = tuple;
            for _ in &parts {
                starts.insert(0, left % positions + 1);
                left /= positions;
            }
            let stand = parts.iter().zip(&starts).all(|((part, _, _), start)| {
                let there = sequence.get(start - 1..start - 1 + part.len());
                there.is_some_and(|there| there.chars().zip(part.chars()).all(fits))
            });
            let gaps = (1..parts.len()).all(|next| {
                let gap =
                    starts[next] as i64 - starts[next - 1] as i64 - parts[next - 1].0.len() as i64;
                parts[next].1 <= gap && gap <= parts[next].2
            });
            if stand && gaps {
                let mut row = vec![index as u32 + 1];
                row.extend(starts.iter().map(|start| *start as u32));
                rows.push(row);
            }
        }
    }
    rows
}

/// Support and weighted support of a prefix from all its occurrences: their
/// sequences, and their own number.
pub fn naive_supports(occurrences: &[Vec<u32>]) -> (u32, u64) {
    let mut sequences: Vec<u32> = occurrences.iter().map(|row| row[0]).collect();
    sequences.dedup();
    (sequences.len() as u32, occurrences.len() as u64)
}

/// The whole search by trying every prefix of every length: 4 times the
/// number of frequent prefixes of 0 to K - 1 letters, and the frequent motifs.
pub fn naive_whole(lent: &Lent, template: &Template, quorum: u64) -> (u64, Vec<Row>) {
    let k: usize = template
        .components
        .iter()
        .map(|component| component.length as usize)
        .sum();
    let mut frequent_prefixes = 1;
    let mut rows = Vec::new();
    for letters in 1..=k {
        for number in 0..1u64 << (2 * letters) {
            let found = naive_occurrences(lent, template, &letters_of(letters, number));
            let (support, weight) = naive_supports(&found);
            if u64::from(support) < quorum {
                continue;
            }
            if letters < k {
                frequent_prefixes += 1;
            } else {
                rows.push((number, support, weight));
            }
        }
    }
    (4 * frequent_prefixes, rows)
}
