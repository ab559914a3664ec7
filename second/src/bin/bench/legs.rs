//! Legs of the three programs over the same search, held to the same answer.

use crate::bits::Bits;
use crate::linked;
use crate::positions::Positions;
use crate::timing::Work;
use crate::walk::{leg, Place, Rows, Search, Went};

type Run<'a> = Box<dyn FnMut(&mut Rows) -> Went + 'a>;

/// A leg of one program, with tables of so many rows.
pub struct Leg<'a> {
    run: Run<'a>,
    room: usize,
}

impl<'a> Leg<'a> {
    /// The leg with tables that are made once, before any time is taken.
    pub fn work(mut self) -> Work<'a> {
        let mut tables = Rows::with_room(self.room);
        Box::new(move || (self.run)(&mut tables).steps)
    }
}

/// A leg of the library, of bits and of positions. Each makes what it works in
/// afresh: the library some 1.3 MiB on the stack, all of it cleared; bits its
/// rows and its counts, as long as the set's sequences; positions its text, its
/// lists and the counts beside them, in memory that is kept from leg to leg.
pub fn legs<'a>(search: &'a Search, place: Place, budget: u64, room: usize) -> Vec<Leg<'a>> {
    let saved = linked::saved_at(search, place);
    let runs: Vec<Run> = vec![
        Box::new(move |tables| linked::leg(search, &saved, budget, tables)),
        Box::new(move |tables| leg(&mut Bits::new(search), search, place, budget, tables)),
        Box::new(move |tables| leg(&mut Positions::new(search), search, place, budget, tables)),
    ];
    runs.into_iter().map(|run| Leg { run, room }).collect()
}

/// Checks that all legs go as far and write the same; how far that is.
pub fn agreed(legs: &mut [Leg]) -> Went {
    let mut answers = legs.iter_mut().map(|leg| {
        let mut tables = Rows::with_room(leg.room);
        let went = (leg.run)(&mut tables);
        (went, tables)
    });
    let first = answers.next().expect("the library");
    for answer in answers {
        assert_eq!(first, answer, "the programs differ");
    }
    first.0
}
