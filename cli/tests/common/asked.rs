//! A search as it is asked for, in words for the program and in numbers for
//! the second program, and the table that the second program expects of it.

// Each test file uses a part of it.
#![allow(dead_code)]

use crate::common::sums;
use second::requests::random::Random;
use second::{begin, leg, next_record, Answer, Component, Place, Profile, Refusal, Template};

/// The rows of the tables that are lent to a leg of the second program: few,
/// so that legs end because they are full.
const ROOM: usize = 500;

/// A quorum: a number of sequences, or so many of a hundred times a power of
/// ten.
#[derive(Clone, Copy, Debug)]
pub enum Quorum {
    Number(u64),
    Share { part: u64, places: u32 },
}

impl Quorum {
    /// As it is written.
    pub fn text(self) -> String {
        match self {
            Quorum::Number(number) => number.to_string(),
            Quorum::Share { part, places: 0 } => format!("{part}%"),
            Quorum::Share { part, places } => {
                let unit = 10u64.pow(places);
                let width = places as usize;
                format!("{}.{:0width$}%", part / unit, part % unit)
            }
        }
    }

    /// The number of sequences. Of a share it is the least that reaches it:
    /// found by counting up until it does.
    pub fn of(self, count: u64) -> u64 {
        match self {
            Quorum::Number(number) => number,
            Quorum::Share { part, places } => {
                let whole = 100 * 10u128.pow(places);
                let reaches =
                    |n: &u64| u128::from(*n) * whole >= u128::from(part) * u128::from(count);
                (0..).find(reaches).expect("a number that reaches it")
            }
        }
    }
}

/// A search that is asked for.
#[derive(Clone, Debug)]
pub struct Asked {
    /// Letters, l and u of each component, as far as they may go wrong.
    pub shape: Vec<(usize, u16, u16)>,
    /// What stands behind `--mixed`: one number, or one for each component.
    pub mixed: Option<Vec<u16>>,
    pub quorum: Quorum,
    pub file: Vec<u8>,
}

impl Asked {
    /// The template's text.
    pub fn text(&self) -> String {
        let mut text = String::new();
        for (i, (length, low, high)) in self.shape.iter().enumerate() {
            if i > 0 {
                text.push_str(&format!("[{low},{high}]"));
            }
            text.push_str(&"N".repeat(*length));
        }
        text
    }

    /// The words of a search over the file of this name.
    pub fn words(&self, file: &str) -> Vec<String> {
        let mut words = vec!["search".to_string(), self.text(), self.quorum.text()];
        words.push(file.to_string());
        if let Some(mixed) = &self.mixed {
            let numbers: Vec<String> = mixed.iter().map(u16::to_string).collect();
            words.push("--mixed".to_string());
            words.push(numbers.join(","));
        }
        words
    }

    /// The template as the second program has it.
    pub fn template(&self) -> Template {
        let allowance = |i: usize| match self.mixed.as_deref() {
            None => 0,
            Some([all]) => *all,
            Some(each) => each[i],
        };
        let component = |(i, (length, low, high)): (usize, &(usize, u16, u16))| Component {
            length: u8::try_from(*length).unwrap_or(u8::MAX),
            low: *low,
            high: *high,
            allowance: allowance(i),
        };
        Template {
            profile: match self.mixed {
                None => Profile::Exact,
                Some(_) => Profile::Mixed,
            },
            components: self.shape.iter().enumerate().map(component).collect(),
        }
    }

    /// What a table's last line tells of what was searched.
    fn searched(&self, letters: &[u8], lengths: &[u32], quorum: u64) -> String {
        let mixed = match self.mixed {
            None => "no".to_string(),
            Some(_) => {
                let each = self.template().components.into_iter();
                let each: Vec<String> = each.map(|c| c.allowance.to_string()).collect();
                each.join(",")
            }
        };
        format!(
            "template {}, mixed {mixed}, quorum {quorum}, sequences {}, letters {}, sum {:016x}",
            self.text(),
            lengths.len(),
            letters.len(),
            sums::sequences(letters, lengths)
        )
    }

    /// What the second program answers: the whole table, or a refusal.
    pub fn expected(&self) -> Result<Table, Refusal> {
        let (letters, lengths) = read(&self.file)?;
        let template = self.template();
        let quorum = self.quorum.of(lengths.len() as u64);
        let mut search = begin(&letters, &lengths, &template, quorum)?;
        let mut table = Table {
            searched: self.searched(&letters, &lengths, quorum),
            ..Table::default()
        };
        loop {
            let (mut motifs, mut supports, mut weights) = ([0; ROOM], [0; ROOM], [0; ROOM]);
            let leg = leg(
                &letters,
                &lengths,
                &search,
                u64::MAX,
                &mut motifs,
                &mut supports,
                &mut weights,
            );
            for row in 0..leg.rows {
                let motif = spelled(&template, motifs[row]);
                let line = format!("{motif}\t{}\t{}\n", supports[row], weights[row]);
                table.lines.push_str(&line);
            }
            table.steps += leg.steps;
            table.rows += leg.rows as u64;
            search = leg.search;
            match leg.answer {
                Answer::Ended => return Ok(table),
                Answer::Spent | Answer::Full => {}
                Answer::Refused(refusal) => return Err(refusal),
            }
        }
    }
}

/// A table, without its first line and its last.
#[derive(Debug, Default)]
pub struct Table {
    lines: String,
    /// What the last line tells of what was searched.
    searched: String,
    pub steps: u64,
    pub rows: u64,
}

impl Table {
    /// The whole of it: the header, the rows, and the comment.
    pub fn text(&self) -> String {
        let lines = format!("motif\tsupport\toccurrences\n{}", self.lines);
        format!(
            "{lines}# end: steps {}, rows {}, {}, table {:016x}\n",
            self.steps,
            self.rows,
            self.searched,
            sums::words(lines.as_bytes())
        )
    }
}

/// A motif in the template's shape.
fn spelled(template: &Template, number: u64) -> String {
    let place = Place {
        letters: template.letters_in_all() as u8,
        number,
    };
    let mut letters = place
        .values(template.profile)
        .into_iter()
        .map(|value| char::from(template.profile.letters()[usize::from(value)]));
    let mut text = String::new();
    for (i, component) in template.components.iter().enumerate() {
        if i > 0 {
            text.push_str(&format!("[{},{}]", component.low, component.high));
        }
        text.extend(letters.by_ref().take(component.length.into()));
    }
    text
}

/// The letters and the lengths of a file's records, read by the second
/// program.
fn read(file: &[u8]) -> Result<(Vec<u8>, Vec<u32>), Refusal> {
    let mut letters = vec![0; file.len()];
    let mut lengths = vec![0; file.len()];
    let (mut at, mut used, mut count) = (0, 0, 0);
    while let Some(handed) = next_record(file, at, &mut letters, used, &mut lengths, count)? {
        at = handed.at;
        used += handed.letters;
        count += 1;
    }
    letters.truncate(used);
    lengths.truncate(count);
    Ok((letters, lengths))
}

/// A template within the rules: 1 to 4 components, and few letters in all, for
/// the second program is slow.
pub fn shape(random: &mut Random, most: usize) -> Vec<(usize, u16, u16)> {
    let mut left = most;
    let mut shape = Vec::new();
    for i in 0..random.within(1, 4) {
        if left == 0 {
            break;
        }
        let length = random.within(1, left.min(4) as u64) as usize;
        let low = random.below(3) as u16;
        let high = low + random.below(4) as u16;
        shape.push((
            length,
            if i > 0 { low } else { 0 },
            if i > 0 { high } else { 0 },
        ));
        left -= length;
    }
    shape
}

/// Allowances for a template: one for all, or one for each; none above its
/// component's length.
pub fn allowances(random: &mut Random, shape: &[(usize, u16, u16)]) -> Vec<u16> {
    let shortest = shape.iter().map(|(length, ..)| *length).min().unwrap_or(0);
    if random.once_in(3) {
        return vec![random.below(shortest as u64 + 1) as u16];
    }
    shape
        .iter()
        .map(|(length, ..)| random.below(*length as u64 + 1) as u16)
        .collect()
}

/// A quorum that most often is one of a search over so many sequences.
pub fn quorum(random: &mut Random, count: u64) -> Quorum {
    let places = random.pick(&[0, 0, 1, 2, 9]);
    match random.below(4) {
        0 => Quorum::Share {
            part: random.within(1, 100 * 10u64.pow(places)),
            places,
        },
        1 => Quorum::Share {
            part: random.within(0, 120),
            places: 0,
        },
        _ => Quorum::Number(random.within(1, count.max(1))),
    }
}
