//! The walk, in both profiles, against every word of their letters tried on every
//! tuple.

mod common;

use common::naive::{naive_occurrences, naive_supports, naive_whole};
use common::*;
use second::{candidates, support, weighted_support, Profile, Template};

#[test]
fn the_list_is_that_of_trying_everything() {
    let mut random = Random::new(11);
    let mut rows_seen = 0;
    for _ in 0..80 {
        let lent = random.sequences(4, 9, 4);
        let template = random.template(4);
        let quorum = 1 + random.below(lent.lengths.len() as u64);
        let found = whole(&lent, &template, quorum);
        assert_eq!(
            found,
            naive_whole(&lent, &template, quorum),
            "{lent:?} {template:?} {quorum}"
        );
        rows_seen += found.1.len();
    }
    assert!(rows_seen > 100);
}

#[test]
fn the_same_over_two_letters_and_longer_motifs() {
    let mut random = Random::new(12);
    for _ in 0..24 {
        let lent = random.sequences(3, 8, 2);
        let template = random.template(5);
        let quorum = 1 + random.below(lent.lengths.len() as u64);
        let found = whole(&lent, &template, quorum);
        assert_eq!(
            found,
            naive_whole(&lent, &template, quorum),
            "{lent:?} {template:?} {quorum}"
        );
    }
}

/// Every prefix of 1 to K letters whose mixed letters the allowances cover, in
/// the order of the walk: a prefix comes before what begins with it.
fn allowed(template: &Template) -> Vec<String> {
    let alphabet = alphabet(template.profile);
    let mut words = vec![String::new()];
    let mut all = Vec::new();
    for _ in 0..template.letters_in_all() {
        let longer = |word: &String| {
            alphabet
                .chars()
                .map(move |l| format!("{word}{l}"))
                .collect()
        };
        words = words.iter().flat_map::<Vec<String>, _>(longer).collect();
        all.extend(words.clone());
    }
    all.retain(|prefix| within_allowances(template, prefix));
    all.sort_by_key(|prefix| -> Vec<Option<usize>> {
        prefix.chars().map(|letter| alphabet.find(letter)).collect()
    });
    all
}

fn within_allowances(template: &Template, prefix: &str) -> bool {
    let mut at = 0;
    template.components.iter().all(|component| {
        let part: Vec<char> = prefix
            .chars()
            .skip(at)
            .take(component.length.into())
            .collect();
        at += usize::from(component.length);
        let several = part.iter().filter(|letter| !"ACGT".contains(**letter));
        several.count() <= usize::from(component.allowance)
    })
}

/// A random template of the profile.
fn random_template(profile: Profile, most: u64, random: &mut Random) -> Template {
    let mut template = random.template(most);
    template.profile = profile;
    if profile == Profile::Mixed {
        for part in &mut template.components {
            part.allowance = random.below(u64::from(part.length) + 1) as u16;
        }
    }
    template
}

/// Compares a search's candidates, steps and list with what every allowed prefix
/// comes to, and answers the list's motifs.
fn compare_with_allowed(lent: &Lent, template: &Template, quorum: u64) -> Vec<String> {
    let profile = template.profile;
    let counts = |prefix: &str| naive_supports(&naive_occurrences(lent, template, prefix));
    let frequent = |prefix: &str| prefix.is_empty() || u64::from(counts(prefix).0) >= quorum;
    let mut expected = allowed(template);
    expected.retain(|prefix| frequent(&prefix[..prefix.len() - 1]));

    let walked = candidates(&lent.letters, &lent.lengths, template, quorum).unwrap();
    let mut found = Vec::new();
    for candidate in walked {
        let (letters, number) = (candidate.place.letters, candidate.place.number);
        let prefix = letters_in(profile, letters.into(), number);
        assert_eq!(candidate.frequent, frequent(&prefix));
        let told = (candidate.support, candidate.weighted_support);
        assert_eq!(told, counts(&prefix));
        found.push(prefix);
    }
    assert_eq!(found, expected, "{lent:?} {template:?} {quorum}");

    let k = template.letters_in_all() as usize;
    let mut motifs = expected.clone();
    motifs.retain(|prefix| prefix.len() == k && frequent(prefix));
    let row = |motif: &String| {
        let (support, weight) = counts(motif);
        (number_in(profile, motif), support, weight)
    };
    let rows: Vec<Row> = motifs.iter().map(row).collect();
    let steps = expected.len() as u64;
    assert_eq!(whole(lent, template, quorum), (steps, rows));
    motifs
}

#[test]
fn candidates_are_the_allowed_prefixes_whose_shorter_prefix_is_frequent() {
    for (profile, seed) in [(Profile::Exact, 13), (Profile::Mixed, 21)] {
        let mut random = Random::new(seed);
        let mut motifs = Vec::new();
        for round in 0..90 {
            let lent = random.sequences(4, 7, 2 + round % 3);
            let most = if round % 3 == 0 { 3 } else { 2 };
            let template = random_template(profile, most, &mut random);
            let quorum = 1 + random.below(lent.lengths.len() as u64);
            motifs.extend(compare_with_allowed(&lent, &template, quorum));
        }
        let all = motifs.len();
        motifs.retain(|motif| motif.contains(|letter| !"ACGT".contains(letter)));
        match profile {
            Profile::Exact => assert!(all > 100 && motifs.is_empty(), "{all}"),
            Profile::Mixed => assert!(all > 1_000 && motifs.len() > 500, "{all}"),
        }
    }
}

#[test]
fn counts_of_prefixes() {
    for (profile, seed) in [(Profile::Exact, 14), (Profile::Mixed, 22)] {
        let mut random = Random::new(seed);
        let mut found_some = 0;
        for _ in 0..400 {
            let lent = random.sequences(3, 9, 4);
            let template = random_template(profile, 4, &mut random);
            let letters = 1 + random.below(template.letters_in_all());
            let alphabet = alphabet(profile);
            let prefix: String = (0..letters)
                .map(|_| alphabet.as_bytes()[random.below(alphabet.len() as u64) as usize] as char)
                .collect();
            let asked = place(letters as u8, number_in(profile, &prefix));
            let support = support(&lent.letters, &lent.lengths, &template, &asked);
            let weight = weighted_support(&lent.letters, &lent.lengths, &template, &asked);
            if !within_allowances(&template, &prefix) {
                assert_eq!(support, Err(refusal(23, 0)));
                assert_eq!(weight, Err(refusal(23, 0)));
                continue;
            }
            let (marks, occurrences) =
                naive_supports(&naive_occurrences(&lent, &template, &prefix));
            assert_eq!((support, weight), (Ok(marks), Ok(occurrences)));
            found_some += u32::from(marks > 0);
        }
        assert!(found_some > 50, "{found_some}");
    }
}

#[test]
fn a_question_about_no_prefix_is_refused() {
    let lent = e();
    for wrong in [
        place(0, 0),
        place(0, 1),
        place(3, 0),
        place(1, 4),
        place(2, 16),
    ] {
        let asked = support(&lent.letters, &lent.lengths, &e_template(), &wrong);
        assert_eq!(asked, Err(refusal(23, 0)));
    }
}

/// A quorum that a single letter misses is reached by a mixed one, and what a
/// letter finds, every letter with more bases finds too.
#[test]
fn more_bases_find_no_less() {
    let mut random = Random::new(23);
    let all = mixed(&[(2, 2, 0, 0), (1, 1, 0, 2)]);
    for _ in 0..20 {
        let lent = random.sequences(4, 9, 4);
        let ask = |prefix: &str| {
            let asked = place(3, mixed_number(prefix));
            weighted_support(&lent.letters, &lent.lengths, &all, &asked).unwrap()
        };
        for (less, more) in [
            ("A", "R"),
            ("R", "D"),
            ("G", "S"),
            ("S", "V"),
            ("Y", "H"),
            ("K", "B"),
        ] {
            for rest in ["AC", "RT", "BV"] {
                assert!(ask(&format!("{less}{rest}")) <= ask(&format!("{more}{rest}")));
                assert!(ask(&format!("{rest}{less}")) <= ask(&format!("{rest}{more}")));
            }
        }
        // A letter of two bases finds what its two letters find, and so on.
        for (letter, bases) in [("R", "AG"), ("W", "AT"), ("H", "ACT"), ("B", "CGT")] {
            let single = bases
                .chars()
                .map(|base| ask(&format!("A{base}C")))
                .sum::<u64>();
            assert_eq!(ask(&format!("A{letter}C")), single);
        }
    }
}
