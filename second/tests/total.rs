//! Any slices and any numbers: every call answers.

mod common;

use common::*;
use second::{begin, join, leg, recover, restore, save, Place, Search, Template};

/// A number that is small, at an edge, or anything.
fn any(random: &mut Random) -> u64 {
    match random.below(4) {
        0 => random.below(5),
        1 => 1 << random.below(64),
        2 => u64::MAX >> random.below(64),
        _ => random.below(u64::MAX),
    }
}

fn any_template(random: &mut Random) -> Template {
    let count = random.below(9);
    let components = (0..count).map(|index| match random.below(8) {
        0 => (any(random) as u8, any(random) as u16, any(random) as u16),
        _ if index == 0 => (1 + random.below(3) as u8, 0, 0),
        _ => (
            1 + random.below(3) as u8,
            random.below(3) as u16,
            3 + random.below(250) as u16,
        ),
    });
    template(&components.collect::<Vec<_>>())
}

fn any_lent(random: &mut Random) -> Lent {
    let mut lent = random.sequences(4, 30, 4);
    match random.below(8) {
        0 => lent.lengths.push(any(random) as u32),
        1 => lent.letters.push(any(random) as u8),
        2 => lent.lengths.clear(),
        _ => {}
    }
    lent
}

#[test]
fn every_call_answers() {
    let mut random = Random::new(71);
    let mut answered = [0; 5];
    for _ in 0..4_000 {
        let lent = any_lent(&mut random);
        let template = any_template(&mut random);
        let (letters, lengths) = (&lent.letters[..], &lent.lengths[..]);
        let quorum = if random.below(4) == 0 {
            any(&mut random)
        } else {
            1 + random.below(2)
        };
        let begun = begin(letters, lengths, &template, quorum);
        answered[0] += u32::from(begun.is_ok());
        let search = match begun {
            Ok(search) if random.below(2) == 0 => search,
            _ => Search {
                template: template.clone(),
                quorum,
                sequences: lengths.len() as u32,
                letters: letters.len() as u32,
                place: Place {
                    letters: random.below(9) as u8,
                    number: any(&mut random),
                },
            },
        };
        let mut bytes = [0; 200];
        let (budget, room) = (random.below(30), random.below(4) as usize);
        let mut motifs = vec![0; room];
        let mut supports = vec![0; random.below(5) as usize];
        let answer = leg(
            letters,
            lengths,
            &search,
            budget,
            &mut motifs,
            &mut supports,
            &mut [0; 3],
        );
        answered[1] += u32::from(answer.steps > 0);
        if let Ok(length) = save(letters, lengths, &search, &mut bytes) {
            assert_eq!(restore(letters, lengths, &bytes[..length]), Ok(search));
            answered[2] += 1;
        }
        let motif = any(&mut random);
        let first = any(&mut random) * random.below(2);
        let mut out = vec![0; random.below(30) as usize];
        let recovered = recover(letters, lengths, &template, motif, first, &mut out);
        answered[3] += u32::from(recovered.is_ok());
        let bytes: Vec<u8> = (0..random.below(100))
            .map(|_| any(&mut random) as u8)
            .collect();
        let _ = restore(letters, lengths, &bytes);
        let list: Vec<u32> = (0..random.below(3))
            .map(|_| any(&mut random) as u32)
            .collect();
        let joined = join(&list, &list, any(&mut random) as u8, 0, 255, &mut [0; 2]);
        answered[4] += u32::from(joined.is_ok());
    }
    assert!(answered.iter().all(|count| *count > 100), "{answered:?}");
}
