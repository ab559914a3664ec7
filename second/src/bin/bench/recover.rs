//! Recovery by both Rust programs: every occurrence of a motif in order, as
//! many rows as there is room for, and how many there are.

use crate::passes::all_ways;
use crate::positions::ways_before;
use crate::walk::{Place, Search};
use second::Component;

/// Rows that go out until there is no room.
struct Table<'a> {
    out: &'a mut [u32],
    at: usize,
    rows: usize,
}

impl Table<'_> {
    fn full(&self, width: usize) -> bool {
        self.out.len() - self.at < width
    }

    fn write(&mut self, row: &[u32]) {
        if let Some(to) = self.out.get_mut(self.at..self.at + row.len()) {
            to.copy_from_slice(row);
            self.at += row.len();
            self.rows += 1;
        }
    }
}

/// By the passes: flags that say where each component can start with the rest
/// after it, and a descent along them.
pub fn by_passes(search: &Search, motif: u64, out: &mut [u32]) -> (usize, u64) {
    let letters = search.depth();
    let number = motif;
    let word = Place { letters, number }.word();
    let longest = search.set.sequences().map(<[u8]>::len).max().unwrap_or(0);
    let mut flags = vec![vec![false; longest]; search.components.len()];
    let (mut ways, mut later) = (vec![0; longest], vec![0; longest]);
    let (at, rows) = (0, 0);
    let mut table = Table { out, at, rows };
    let mut length = 0;
    for (number, sequence) in (1..).zip(search.set.sequences()) {
        let components = &search.components;
        all_ways(
            components,
            &word,
            sequence,
            &mut ways,
            &mut later,
            |number, ways| {
                for (flag, ways) in flags[number].iter_mut().zip(ways) {
                    *flag = *ways > 0;
                }
                if number == 0 {
                    length += ways.iter().sum::<u64>();
                }
            },
        );
        let mut row = [number, 0, 0, 0, 0, 0, 0];
        let starts = (0, sequence.len());
        descend(
            components,
            &flags,
            sequence.len(),
            0,
            starts,
            &mut row,
            &mut table,
        );
    }
    (table.rows, length)
}

fn descend(
    components: &[Component],
    flags: &[Vec<bool>],
    letters: usize,
    component: usize,
    (from, to): (usize, usize),
    row: &mut [u32; 7],
    table: &mut Table,
) {
    let width = components.len() + 1;
    let flags_here = flags[component].get(from..to).unwrap_or_default();
    for (start, _) in (from..).zip(flags_here).filter(|(_, flag)| **flag) {
        if table.full(width) {
            return;
        }
        row[component + 1] = start as u32 + 1;
        match components.get(component + 1) {
            None => table.write(&row[..width]),
            Some(next) => {
                let after = start + usize::from(components[component].length);
                let starts = (
                    after + usize::from(next.low),
                    (after + usize::from(next.high) + 1).min(letters),
                );
                descend(
                    components,
                    flags,
                    letters,
                    component + 1,
                    starts,
                    row,
                    table,
                );
            }
        }
    }
}

/// By position lists: where each component stands, cut from the last to the
/// first to those that the next can follow, and a descent along the lists.
pub fn by_positions(search: &Search, motif: u64, out: &mut [u32]) -> (usize, u64) {
    let letters = search.depth();
    let number = motif;
    let word = Place { letters, number }.word();
    let (at, rows) = (0, 0);
    let mut table = Table { out, at, rows };
    let mut length = 0;
    for (number, sequence) in (1..).zip(search.set.sequences()) {
        let (lists, occurrences) = lists(&search.components, &word, sequence);
        length += occurrences;
        let mut row = [number, 0, 0, 0, 0, 0, 0];
        let range = (0, u32::MAX);
        follow(&search.components, &lists, 0, range, &mut row, &mut table);
    }
    (table.rows, length)
}

/// The starts of each component in a sequence, from 0, that the rest can
/// follow; and how many occurrences there are.
fn lists(components: &[Component], word: &[u8], sequence: &[u8]) -> (Vec<Vec<u32>>, u64) {
    let mut rest = word;
    let mut lists: Vec<Vec<u32>> = Vec::new();
    for component in components {
        let (part, after) = rest.split_at(usize::from(component.length));
        let stands = |(at, found): (usize, &[u8])| (found == part).then_some(at as u32);
        lists.push(
            sequence
                .windows(part.len())
                .enumerate()
                .filter_map(stands)
                .collect(),
        );
        rest = after;
    }
    let mut ways = vec![1; lists.last().map_or(0, Vec::len)];
    let mut later = Vec::new();
    for (here, pair) in components.windows(2).enumerate().rev() {
        let (before, after) = lists.split_at_mut(here + 1);
        std::mem::swap(&mut ways, &mut later);
        keep_followed(pair, &mut before[here], (&after[0], &later), &mut ways);
    }
    (lists, ways.iter().sum())
}

/// Keeps the starts of a component that some start of the next can follow,
/// each with its ways.
fn keep_followed(
    pair: &[Component],
    starts: &mut Vec<u32>,
    later: (&[u32], &[u64]),
    ways: &mut Vec<u64>,
) {
    let (low, high) = (u32::from(pair[1].low), u32::from(pair[1].high));
    let length = u32::from(pair[0].length);
    ways_before(
        starts,
        later,
        (length + low, length + high),
        |_, _| true,
        ways,
    );
    let mut of_each = ways.iter();
    starts.retain(|_| of_each.next().is_some_and(|ways| *ways > 0));
    ways.retain(|ways| *ways > 0);
}

fn follow(
    components: &[Component],
    lists: &[Vec<u32>],
    component: usize,
    (least, most): (u32, u32),
    row: &mut [u32; 7],
    table: &mut Table,
) {
    let width = components.len() + 1;
    let from = lists[component].partition_point(|start| *start < least);
    for start in lists[component][from..]
        .iter()
        .take_while(|start| **start <= most)
    {
        if table.full(width) {
            return;
        }
        row[component + 1] = start + 1;
        match components.get(component + 1) {
            None => table.write(&row[..width]),
            Some(next) => {
                let after = start + u32::from(components[component].length);
                let range = (after + u32::from(next.low), after + u32::from(next.high));
                follow(components, lists, component + 1, range, row, table);
            }
        }
    }
}
