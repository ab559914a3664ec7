//! Random files, templates and motifs, and where the second program finds
//! them.

use crate::common::Random;
use second::{Component, Profile, Template};

/// A file and a template.
pub struct Case {
    pub template: Template,
    pub names: Vec<Vec<u8>>,
    pub sequences: Vec<Vec<u8>>,
}

/// Beginnings of names that all formats take.
pub const USUAL: &[&[u8]] = &[
    b"chr",
    b"NC_000913.",
    b">a;b=c&d,e%",
    b"\xff\xc3\xa4|",
    b"x#",
];

/// Beginnings of names that only a plain table takes.
pub const ODD: &[&[u8]] = &[b"", b"#", b"a\x0bb", b"\x00\x7f"];

impl Case {
    /// A template of 1 to 4 components, and sequences of few letters, so that
    /// motifs occur often. Names begin as these do, and differ.
    pub fn random(random: &mut Random, beginnings: &[&[u8]]) -> Case {
        let components = 1 + random.below(4);
        let count = 1 + random.below(5);
        let most = if random.below(2) == 0 { 2 } else { 4 };
        Case {
            template: Template {
                profile: [Profile::Exact, Profile::Mixed][random.below(2) as usize],
                components: (0..components).map(|i| component(random, i)).collect(),
            },
            names: (0..count)
                .map(|i| {
                    let beginning = beginnings[random.below(beginnings.len() as u64) as usize];
                    [beginning, i.to_string().as_bytes()].concat()
                })
                .collect(),
            sequences: (0..count)
                .map(|_| {
                    let length = random.below(60);
                    (0..length)
                        .map(|_| b"ACGT"[random.below(most) as usize])
                        .collect()
                })
                .collect(),
        }
    }

    /// The file, in lines of any length.
    pub fn file(&self, random: &mut Random) -> Vec<u8> {
        let mut file = Vec::new();
        for (name, sequence) in self.names.iter().zip(&self.sequences) {
            file.extend_from_slice(&[b">", &name[..], b" of no use\n"].concat());
            for line in sequence.chunks(1 + random.below(70) as usize) {
                file.extend_from_slice(line);
                file.push(b'\n');
            }
        }
        file
    }

    /// The template as a word, and the option for a mixed one.
    pub fn words(&self) -> Vec<String> {
        let lengths = |c: &Component| "N".repeat(c.length.into());
        let mut words = vec![self.shaped(self.template.components.iter().map(lengths).collect())];
        if self.template.profile == Profile::Mixed {
            let each: Vec<String> = self
                .template
                .components
                .iter()
                .map(|c| c.allowance.to_string())
                .collect();
            words.push(format!("--mixed={}", each.join(",")));
        }
        words
    }

    /// Components with the ranges between them.
    pub fn shaped(&self, parts: Vec<String>) -> String {
        let mut text = String::new();
        for (i, (part, component)) in parts.iter().zip(&self.template.components).enumerate() {
            if i > 0 {
                text.push_str(&format!("[{},{}]", component.low, component.high));
            }
            text.push_str(part);
        }
        text
    }

    /// A motif of the template: its number and its letters.
    pub fn motif(&self, random: &mut Random) -> (u64, String) {
        let symbols = self.template.profile.letters();
        let mut number = 0;
        let mut parts = Vec::new();
        for component in &self.template.components {
            let mut several = match self.template.profile {
                Profile::Exact => 0,
                Profile::Mixed => component.allowance,
            };
            let mut part = String::new();
            for _ in 0..component.length {
                // Of the letters A and C alone most sequences are made.
                let mut digit = random.below(3);
                if several > 0 && random.below(2) == 0 {
                    digit = 4 + random.below(10);
                    several -= 1;
                }
                number = number * self.template.profile.base() + digit;
                part.push(char::from(symbols[digit as usize]));
            }
            parts.push(part);
        }
        (number, self.shaped(parts))
    }

    /// All occurrences of a motif, by the second program.
    pub fn rows(&self, motif: u64) -> Vec<Vec<u32>> {
        let letters = self.sequences.concat();
        let lengths: Vec<u32> = self.sequences.iter().map(|s| s.len() as u32).collect();
        let recover = |out: &mut [u32]| {
            second::recover(&letters, &lengths, &self.template, motif, 0, out).expect("a motif")
        };
        let width = self.template.components.len() + 1;
        let mut out = vec![0; recover(&mut []).length as usize * width];
        recover(&mut out);
        out.chunks(width).map(<[u32]>::to_vec).collect()
    }
}

fn component(random: &mut Random, number: u64) -> Component {
    let length = 1 + random.below(2);
    let low = random.below(3);
    let high = low + random.below(4);
    Component {
        length: length as u8,
        low: if number == 0 { 0 } else { low as u16 },
        high: if number == 0 { 0 } else { high as u16 },
        allowance: random.below(length + 1) as u16,
    }
}

/// The lines of what was printed, without their ends.
pub fn lines(printed: &[u8]) -> Vec<Vec<u8>> {
    let mut lines: Vec<Vec<u8>> = printed.split(|b| *b == b'\n').map(<[u8]>::to_vec).collect();
    assert_eq!(lines.pop(), Some(Vec::new()), "the last line has no end");
    lines
}

/// The columns of a line.
pub fn columns(line: &[u8]) -> Vec<Vec<u8>> {
    line.split(|b| *b == b'\t').map(<[u8]>::to_vec).collect()
}

/// A column as text.
pub fn text(column: &[u8]) -> String {
    String::from_utf8(column.to_vec()).expect("text")
}

/// A column as a number.
pub fn number(column: &[u8]) -> u64 {
    let text = text(column);
    assert!(text.bytes().all(|b| b.is_ascii_digit()), "{text}");
    text.parse().expect("a number")
}
