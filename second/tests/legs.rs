//! Legs: the order of the checks, and legs laid end to end.

mod common;

use common::*;
use second::{leg, Answer};

#[test]
fn a_budget_of_0_takes_no_step() {
    let lent = e();
    let search = lent.begin(&e_template(), 2).unwrap();
    let (answer, rows) = leg_of(&lent, &search, 0, 9);
    assert_eq!(
        (answer.answer, answer.steps, rows.len()),
        (Answer::Spent, 0, 0)
    );
    assert_eq!(answer.search, search);
}

#[test]
fn an_ended_search_answers_ended() {
    let lent = e();
    let mut search = lent.begin(&e_template(), 2).unwrap();
    search.place = place(0, 0);
    for budget in [0, 1, u64::MAX] {
        for room in [0, 1] {
            let (answer, rows) = leg_of(&lent, &search, budget, room);
            assert_eq!(
                (answer.answer, answer.steps, rows.len()),
                (Answer::Ended, 0, 0)
            );
            assert_eq!(answer.search, search);
        }
    }
}

#[test]
fn spent_comes_before_full_and_full_before_the_step() {
    let lent = e();
    let mut search = lent.begin(&e_template(), 2).unwrap();
    search.place = place(2, number("AG"));
    let (answer, _) = leg_of(&lent, &search, 0, 0);
    assert_eq!((answer.answer, answer.steps), (Answer::Spent, 0));
    let (answer, _) = leg_of(&lent, &search, 1, 0);
    assert_eq!((answer.answer, answer.steps), (Answer::Full, 0));
    assert_eq!(answer.search, search);
    let (answer, rows) = leg_of(&lent, &search, 1, 1);
    assert_eq!((answer.answer, answer.steps), (Answer::Spent, 1));
    assert_eq!(rows, [(2, 2, 3)]);
    assert_eq!(answer.search.place, place(2, number("AT")));
}

#[test]
fn ended_comes_before_spent() {
    let lent = e();
    let search = lent.begin(&e_template(), 2).unwrap();
    let (answer, rows) = leg_of(&lent, &search, 20, 3);
    assert_eq!(
        (answer.answer, answer.steps, rows.len()),
        (Answer::Ended, 20, 3)
    );
    let (answer, rows) = leg_of(&lent, &search, 19, 3);
    assert_eq!(
        (answer.answer, answer.steps, rows.len()),
        (Answer::Spent, 19, 3)
    );
    assert_eq!(answer.search.place, place(2, number("TT")));
}

#[test]
fn the_room_is_the_shortest_table() {
    let lent = e();
    let search = lent.begin(&e_template(), 2).unwrap();
    for (first, second, third) in [(1, 9, 9), (9, 1, 9), (9, 9, 1), (1, 2, 3)] {
        let mut motifs = vec![0; first];
        let mut supports = vec![0; second];
        let mut weights = vec![0; third];
        let answer = leg(
            &lent.letters,
            &lent.lengths,
            &search,
            100,
            &mut motifs,
            &mut supports,
            &mut weights,
        );
        assert_eq!((answer.answer, answer.rows), (Answer::Full, 1));
        assert_eq!(answer.search.place, place(2, number("CG")));
        assert_eq!((motifs[0], supports[0], weights[0]), (2, 2, 3));
        assert!(motifs[1..].iter().all(|number| *number == 0));
        assert!(supports[1..].iter().all(|number| *number == 0));
        assert!(weights[1..].iter().all(|number| *number == 0));
    }
}

#[test]
fn legs_laid_end_to_end_are_the_whole_search() {
    let mut random = Random::new(21);
    for _ in 0..150 {
        let lent = random.sequences(6, 25, 4);
        let template = random.template(6);
        let quorum = 1 + random.below(lent.lengths.len() as u64);
        let (whole_steps, whole_rows) = whole(&lent, &template, quorum);

        let mut search = lent.begin(&template, quorum).unwrap();
        let mut steps = 0;
        let mut rows = Vec::new();
        loop {
            let budget = random.below(20);
            let room = random.below(4) as usize;
            let (answer, found) = leg_of(&lent, &search, budget, room);
            assert!(answer.steps <= budget && answer.rows <= room);
            match answer.answer {
                Answer::Ended => assert_eq!(answer.search.place, place(0, 0)),
                Answer::Spent => assert_eq!(answer.steps, budget),
                Answer::Full => assert_eq!(answer.rows, room),
                Answer::Refused(refusal) => panic!("{refusal:?}"),
            }
            steps += answer.steps;
            rows.extend(found);
            let restored = restore_of(&lent, &save_of(&lent, &answer.search));
            assert_eq!(restored, Ok(answer.search.clone()));
            search = restored.unwrap();
            if answer.answer == Answer::Ended {
                break;
            }
        }
        assert_eq!((steps, rows), (whole_steps, whole_rows));
        let (again, _) = leg_of(&lent, &search, 50, 5);
        assert_eq!(
            (again.answer, again.steps, again.rows),
            (Answer::Ended, 0, 0)
        );
    }
}

#[test]
fn a_leg_of_one_step_visits_each_candidate_once() {
    let lent = e();
    let mut search = lent.begin(&e_template(), 2).unwrap();
    let listed = second::candidates(&lent.letters, &lent.lengths, &e_template(), 2).unwrap();
    for candidate in listed {
        assert_eq!(search.place, candidate.place);
        let (answer, _) = leg_of(&lent, &search, 1, 1);
        assert_eq!(answer.steps, 1);
        search = answer.search;
    }
    assert_eq!(search.place, place(0, 0));
}
