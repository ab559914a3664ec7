//! The linked library beside the second program, on every request of
//! src/requests: every number told and the whole of every lent table, refused
//! calls too.
//!
//! A search goes from call to call as its saved bytes. So the leg of a search
//! value is a save of it and a leg of what was saved. Where the save is refused,
//! which is compared too, the leg is one of the bytes that it would have
//! written; that is refused for the same reason. Some values no bytes hold, since a
//! number of theirs does not go into its record: of those there is only the save.

use second::requests::answer::{records_of, value_of, Answer, DONE};
use second::requests::request::{Kind, Request, MORE_THAN_A_SAVE};
use second::requests::{groups, Group, Seen};

mod linked;

use linked::asked::answered;

/// What came up.
#[derive(Default)]
struct Compared {
    seen: Seen,
    calls: usize,
    /// Legs of search values: of those that are saved, how many hold numbers
    /// that are not; of those that a save refuses, how many bytes hold, and how
    /// many none do.
    saved: usize,
    saved_in_part: usize,
    refused: usize,
    unheld: usize,
}

impl Compared {
    /// Makes a call of the library, and compares its answer.
    fn call(&mut self, request: &Request, expected: &Answer) -> Result<(), String> {
        let found = answered(request);
        if let Some(difference) = found.difference(expected) {
            return Err(format!("the library differs in {difference}\n{request}"));
        }
        self.calls += 1;
        self.seen.count(request, &found);
        Ok(())
    }

    /// A leg of saved bytes, which may hold no search.
    fn leg_of(&mut self, saved: &[u8], leg: &Request) -> Result<Answer, String> {
        let leg = Request {
            saved: saved.to_vec(),
            ..leg.clone()
        };
        let expected = Answer::of_saved(&leg);
        self.call(&leg, &expected)?;
        Ok(expected)
    }

    fn leg_of_value(&mut self, request: &Request) -> Result<(), String> {
        let save = Request {
            saved: vec![7; MORE_THAN_A_SAVE],
            ..Request::new(Kind::Save, &request.set, request.value)
        };
        let told = Answer::expected(&save);
        self.call(&save, &told)?;
        if told.outcome() == DONE {
            let saved = &told.saved[..told.count() as usize];
            self.leg_of(saved, request)?;
            let held = second::restore(&request.set.letters, &request.set.lengths, saved);
            self.saved += 1;
            self.saved_in_part += usize::from(held.map(|s| value_of(&s)) != Ok(request.value));
            return Ok(());
        }
        let Some(bytes) = records_of(&request.value) else {
            self.unheld += 1;
            return Ok(());
        };
        let leg = self.leg_of(&bytes, request)?;
        assert_eq!(leg.told, told.told, "another reason\n{request}");
        self.refused += 1;
        Ok(())
    }

    fn request(&mut self, request: &Request) -> Result<(), String> {
        if request.kind == Kind::Leg {
            return self.leg_of_value(request);
        }
        self.call(request, &Answer::expected(request))?;
        if request.kind == Kind::Restore {
            let leg = Request {
                kind: Kind::Leg,
                budget: 3,
                motifs: vec![7; 2],
                supports: vec![7; 2],
                weights: vec![7; 2],
                ..request.clone()
            };
            self.leg_of(&request.saved, &leg)?;
        }
        Ok(())
    }

    fn group(&mut self, group: &Group) {
        let (name, seed, requests) = (&group.name, group.seed, group.requests());
        for request in &requests {
            if let Err(difference) = self.request(request) {
                panic!("{name}, seed {seed}: {difference}");
            }
        }
        println!("{name}: {} requests, seed {seed}", requests.len());
    }
}

#[test]
fn every_answer_is_the_same() {
    let mut compared = Compared::default();
    for group in groups() {
        compared.group(&group);
    }
    println!("{}", compared.seen.told().unwrap().join("\n"));
    println!(
        "legs of search values: {} of their saves ({} of values with numbers that no save has), \
         {} of the bytes of refused ones, {} of refused ones that no bytes hold, as saves only",
        compared.saved, compared.saved_in_part, compared.refused, compared.unheld
    );
    println!("{} calls, and every answer is the same", compared.calls);
}
