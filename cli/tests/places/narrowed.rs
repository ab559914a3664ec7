//! Lists of many motifs, which the program looks for only where they can
//! stand, have the rows that the second program recovers.

use crate::case::{lines, Case};
use crate::common::{run, word, Random, Scratch};
use crate::recovered::table;
use second::{Component, Profile, Template};

/// Words for each component, which motifs share.
type Words = Vec<Vec<Vec<u8>>>;

/// A template of up to 6 components, and words for them.
fn template(random: &mut Random) -> (Template, Words) {
    let profile = [Profile::Exact, Profile::Mixed][random.below(2) as usize];
    let count = 1 + random.below(6);
    let mut left = match profile {
        Profile::Exact => 32,
        Profile::Mixed => 16,
    };
    let mut components = Vec::new();
    for i in 0..count {
        let most = (left - (count - 1 - i)).min([3, 6, 12][random.below(3) as usize]);
        let length = 1 + random.below(most);
        left -= length;
        let low = [0, random.below(40)][random.below(2) as usize] as u16;
        components.push(Component {
            length: length as u8,
            low: if i == 0 { 0 } else { low },
            high: if i == 0 {
                0
            } else {
                low + random.below(8) as u16
            },
            allowance: random.below(length + 1) as u16,
        });
    }
    let words = components
        .iter()
        .map(|c| (0..3).map(|_| random.letters(c.length.into())).collect())
        .collect();
    let template = Template {
        profile,
        components,
    };
    (template, words)
}

/// A sequence in which words stand within their gaps, and letters between.
fn sequence(random: &mut Random, template: &Template, words: &Words) -> Vec<u8> {
    let before = random.below(4);
    let mut sequence = random.letters(before);
    for _ in 0..random.below(5) {
        for (i, component) in template.components.iter().enumerate() {
            let range = u64::from(component.high - component.low);
            let gap = u64::from(component.low) + random.below(range + 1);
            sequence.extend(random.letters(gap));
            sequence.extend_from_slice(&words[i][random.below(3) as usize]);
        }
        let between = [0, 5, 150][random.below(3) as usize];
        sequence.extend(random.letters(between));
    }
    sequence
}

/// A motif of these words, of letters for several bases where it may have
/// them, or of other letters: its number and its text.
fn motif(random: &mut Random, case: &Case, words: &Words) -> (u64, String) {
    let template = &case.template;
    let symbols = template.profile.letters();
    let (mut number, mut parts) = (0, Vec::new());
    for (component, words) in template.components.iter().zip(words) {
        let mut several = component.allowance * u16::from(template.profile == Profile::Mixed);
        let other = random.below(20) == 0;
        let mut part = String::new();
        for letter in &words[random.below(3) as usize] {
            let mut digit = b"ACGT".iter().position(|l| l == letter).unwrap_or(0) as u64;
            if other {
                digit = random.below(4);
            }
            if several > 0 && random.below(2) == 0 {
                digit = 4 + random.below(10);
                several -= 1;
            }
            number = number * template.profile.base() + digit;
            part.push(char::from(symbols[digit as usize]));
        }
        parts.push(part);
    }
    (number, case.shaped(parts))
}

/// The rows of a list of motifs, by the program and by the second program: how
/// many records each motif stands in.
fn compare(case: &Case, motifs: &[(u64, String)], random: &mut Random) -> Vec<usize> {
    let scratch = Scratch::new();
    let file = scratch.file("file.fa", case.file(random));
    let mut list = "motif\n".to_string();
    list.extend(motifs.iter().map(|(_, motif)| format!("{motif}\n")));
    list.push_str(&format!("# end: steps 1, rows {}\n", motifs.len()));
    let list = scratch.file("list.tsv", list);
    let mut words = case.words();
    words.insert(0, "places".to_string());
    words.extend([word(&file).to_string(), "--list".to_string()]);
    words.push(word(&list).to_string());
    let mut wanted = table(case, "", &[]);
    let mut records = Vec::new();
    for (number, motif) in motifs {
        let rows = case.rows(*number);
        let mut held: Vec<u32> = rows.iter().map(|row| row[0]).collect();
        held.dedup();
        records.push(held.len());
        wanted.extend(table(case, motif, &rows).split_off(1));
    }
    let found = lines(&run(&words).printed());
    assert_eq!(found.len(), wanted.len());
    for (found, wanted) in found.iter().zip(&wanted) {
        assert_eq!(found, wanted, "{words:?}");
    }
    records
}

#[test]
fn rows_of_lists_are_those_of_the_second_program() {
    let mut random = Random::new(11);
    let (mut none, mut some, mut all) = (0, 0, 0);
    for _ in 0..40 {
        let (template, words) = template(&mut random);
        let count = 1 + random.below(20);
        let case = Case {
            sequences: (0..count)
                .map(|_| sequence(&mut random, &template, &words))
                .collect(),
            names: (0..count).map(|i| format!("s{i}").into_bytes()).collect(),
            template,
        };
        let motifs: Vec<(u64, String)> =
            (0..40).map(|_| motif(&mut random, &case, &words)).collect();
        for records in compare(&case, &motifs, &mut random) {
            none += usize::from(records == 0);
            some += usize::from(records > 0 && records < case.sequences.len());
            all += usize::from(records == case.sequences.len());
        }
    }
    assert!(none > 100 && some > 300 && all > 50, "{none} {some} {all}");
}

/// Two letters far apart, three times in each record: more windows than the
/// library takes sequences, so that it looks through whole records.
#[test]
fn a_motif_that_stands_in_very_many_places_is_looked_for_everywhere() {
    let far = [b'T'; 65];
    let sequence = [b"AC", &far[..], b"AC", &far, b"AC"].concat();
    let component = Component {
        length: 1,
        low: 0,
        high: 0,
        allowance: 0,
    };
    let case = Case {
        template: Template {
            profile: Profile::Exact,
            components: vec![component.clone(), component],
        },
        names: (0..481).map(|i| format!("s{i}").into_bytes()).collect(),
        sequences: vec![sequence; 481],
    };
    let motifs = [(1, "AC"), (15, "TT"), (0, "AA"), (1, "AC")];
    let shaped = |motif: &str| format!("{}[0,0]{}", &motif[..1], &motif[1..]);
    let motifs = motifs.map(|(number, motif)| (number, shaped(motif)));
    let held = compare(&case, &motifs, &mut Random::new(12));
    assert_eq!(held, [481, 481, 0, 481]);
}
