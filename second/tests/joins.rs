//! The join against its definition.

mod common;

use common::*;
use second::join;

/// A strictly rising list of random positions.
fn list(random: &mut Random, longest: u64, furthest: u64) -> Vec<u32> {
    let mut list: Vec<u32> = (0..random.below(longest + 1))
        .map(|_| 1 + random.below(furthest) as u32)
        .collect();
    list.sort();
    list.dedup();
    list
}

#[test]
fn positions_with_a_partner() {
    let mut random = Random::new(51);
    for _ in 0..2_000 {
        let first = list(&mut random, 12, 60);
        let second = list(&mut random, 12, 60);
        let head = 1 + random.below(12) as u8;
        let low = random.below(20) as u16;
        let high = low + random.below(20) as u16;
        let mut expected = Vec::new();
        for x in &first {
            for y in &second {
                let gap = i64::from(*y) - i64::from(*x) - i64::from(head);
                if i64::from(low) <= gap && gap <= i64::from(high) {
                    expected.push(*x);
                    break;
                }
            }
        }
        let mut out = vec![0; first.len() + random.below(3) as usize];
        assert_eq!(
            join(&first, &second, head, low, high, &mut out),
            Ok(expected.len())
        );
        assert_eq!(out[..expected.len()], expected);
        assert!(out[expected.len()..].iter().all(|number| *number == 0));
    }
}

#[test]
fn the_join_of_two_components_gives_the_starts() {
    // A[0,1]T of the source document's fourth sequence gives 7.
    let mut out = [0; 3];
    assert_eq!(
        join(&[2, 3, 7], &[1, 8, 12, 13, 14], 1, 0, 1, &mut out),
        Ok(1)
    );
    assert_eq!(out, [7, 0, 0]);
}

#[test]
fn the_furthest_positions() {
    let mut out = [0; 2];
    assert_eq!(
        join(&[65_535, 65_536], &[65_536], 1, 0, 255, &mut out),
        Ok(1)
    );
    assert_eq!(out, [65_535, 0]);
    let all: Vec<u32> = (1..=65_536).collect();
    let mut out = vec![0; 65_536];
    assert_eq!(join(&all, &all, 12, 255, 255, &mut out), Ok(65_536 - 267));
    assert_eq!(out[..65_269], all[..65_269]);
}

#[test]
fn empty_lists() {
    assert_eq!(join(&[], &[], 1, 0, 0, &mut []), Ok(0));
    assert_eq!(join(&[], &[3], 1, 0, 0, &mut []), Ok(0));
    let mut out = [4];
    assert_eq!(join(&[3], &[], 1, 0, 0, &mut out), Ok(0));
    assert_eq!(out, [4]);
}

#[test]
fn each_refusal() {
    let join_of = |first: &[u32], second: &[u32], head, low, high, room: usize| {
        let mut out = vec![6; room];
        let answer = join(first, second, head, low, high, &mut out);
        assert!(answer.is_ok() || out.iter().all(|number| *number == 6));
        answer
    };
    for head in [0, 13, 255] {
        assert_eq!(join_of(&[1], &[2], head, 0, 0, 1), Err(refusal(6, 1)));
    }
    for (low, high) in [
        (1, 0),
        (256, 255),
        (0, 256),
        (256, 256),
        (0, 65_535),
        (65_535, 65_535),
    ] {
        assert_eq!(join_of(&[1], &[2], 1, low, high, 1), Err(refusal(8, 1)));
    }
    for (low, high) in [(0, 0), (255, 255), (0, 255), (3, 7)] {
        assert!(join_of(&[1], &[2], 1, low, high, 1).is_ok());
    }
    for wrong in [
        &[0][..],
        &[65_537],
        &[u32::MAX],
        &[2, 2],
        &[3, 2],
        &[1, 2, 4, 3],
    ] {
        assert_eq!(join_of(wrong, &[2], 1, 0, 0, 4), Err(refusal(16, 0)));
        assert_eq!(join_of(&[2], wrong, 1, 0, 0, 4), Err(refusal(16, 0)));
    }
    // The table is too short even if nothing would be written.
    assert_eq!(join_of(&[1, 2], &[], 1, 0, 0, 1), Err(refusal(17, 0)));
    assert_eq!(join_of(&[1, 2], &[], 1, 0, 0, 2), Ok(0));
}

#[test]
fn the_order_of_the_checks() {
    for faults in 0..16 {
        let [head, range, list, table] = [1, 2, 4, 8].map(|fault| faults & fault != 0);
        let expected = if head {
            Err(refusal(6, 1))
        } else if range {
            Err(refusal(8, 1))
        } else if list {
            Err(refusal(16, 0))
        } else if table {
            Err(refusal(17, 0))
        } else {
            Ok(2)
        };
        let mut out = vec![6; if table { 1 } else { 2 }];
        let answer = join(
            &[1, 4],
            if list { &[5, 3] } else { &[3, 5] },
            if head { 13 } else { 1 },
            if range { 2 } else { 0 },
            1,
            &mut out,
        );
        assert_eq!(answer, expected);
        assert!(answer.is_ok() || out.iter().all(|number| *number == 6));
    }
}
