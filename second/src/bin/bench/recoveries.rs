//! Recoveries of the three programs, held to the same rows and then timed.

use crate::linked;
use crate::recover;
use crate::timing::{in_turn, Times, Work};
use crate::walk::Search;

type Recover = fn(&Search, u64, &mut [u32]) -> (usize, u64);

const PROGRAMS: [Recover; 3] = [linked::recover, recover::by_passes, recover::by_positions];

/// The rows written and the list's length; and the times of each program.
pub fn measure(
    search: &Search,
    motif: u64,
    room: usize,
    rounds: usize,
) -> ((usize, u64), Vec<Times>) {
    let width = search.components.len() + 1;
    let answers = PROGRAMS.map(|program| {
        let mut table = vec![0; room * width];
        let told = program(search, motif, &mut table);
        (told, table)
    });
    assert!(answers[0] == answers[1], "passes differs");
    assert!(answers[0] == answers[2], "positions differs");
    let told = answers[0].0;
    let mut works: Vec<Work> = Vec::new();
    for (program, (_, mut table)) in PROGRAMS.into_iter().zip(answers) {
        works.push(Box::new(move || program(search, motif, &mut table).1));
    }
    (told, in_turn(rounds, &mut works))
}
