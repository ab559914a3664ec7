//! A search call by call of the library, and what a saved one is.

use crate::caller::{Call, Caller};
use crate::failure::Answer;
use crate::pace::{Pace, ROOM};
use crate::refusals;
use crate::sequences::Sequences;
use crate::template::Template;
use library::{limits, Refusal, Stop};

/// A search on its way.
pub struct Search {
    /// The saved search, at its place.
    pub saved: Vec<u8>,
    /// The candidates examined, in all legs.
    pub steps: u64,
    /// The rows listed, in all legs.
    pub rows: u64,
    pace: Pace,
    caller: Caller,
    /// What is lent to each call, unless one is under way.
    lent: Option<Call>,
}

/// What a call brought.
pub struct Rows<'a> {
    pub motifs: &'a [u64],
    pub supports: &'a [u32],
    pub weights: &'a [u64],
    /// Whether the search has ended.
    pub ended: bool,
}

impl Search {
    /// A saved search that has taken so many steps and listed so many rows.
    pub fn new(
        sequences: &Sequences,
        template: &Template,
        saved: Vec<u8>,
        steps: u64,
        rows: u64,
    ) -> Answer<Search> {
        Ok(Search {
            steps,
            rows,
            pace: Pace::new(sequences, template),
            caller: Caller::new(sequences)?,
            lent: Some(Call {
                saved: saved.clone(),
                motifs: vec![0; ROOM as usize],
                supports: vec![0; ROOM as usize],
                weights: vec![0; ROOM as usize],
            }),
            saved,
        })
    }

    /// Makes a call, after which the saved search stands at its new place; or,
    /// where `waits` does not say for each moment that the call is waited for,
    /// lets it be, and the search stands where it stood. Then it is over.
    pub fn call(
        &mut self,
        sequences: &Sequences,
        template: &Template,
        waits: impl FnMut() -> bool,
    ) -> Answer<Option<Rows<'_>>> {
        let Some(mut call) = self.lent.take() else {
            return Ok(None);
        };
        call.saved.clone_from(&self.saved);
        let asked = self.pace.ask(sequences, template);
        let Some(done) = self.caller.call(call, asked, waits)? else {
            return Ok(None);
        };
        // What is saved was accepted before, so no call refuses it.
        let leg = done
            .leg
            .map_err(|refusal| refusals::of_save(refusal, "the search"))?;
        self.pace.heed(asked, leg.steps, leg.rows as u64, done.took);
        self.steps = self.steps.saturating_add(leg.steps);
        self.rows = self.rows.saturating_add(leg.rows as u64);
        self.saved.clone_from(&done.call.saved);
        let call = self.lent.insert(done.call);
        Ok(Some(Rows {
            motifs: &call.motifs[..leg.rows],
            supports: &call.supports[..leg.rows],
            weights: &call.weights[..leg.rows],
            ended: leg.stop == Stop::Ended,
        }))
    }
}

/// What a saved search is.
pub struct Restored {
    pub template: Template,
    pub quorum: u64,
    /// The letters and the number of the next candidate; 0 and 0 where the
    /// search has ended.
    pub next: (u64, u64),
}

/// Asks the library what a saved search is.
pub fn restored(sequences: &Sequences, saved: &[u8]) -> Result<Restored, Refusal> {
    let mut shape = [0; limits::SHAPE];
    let mut allowances = [0; limits::COMPONENTS];
    let search = library::restore(
        &sequences.letters,
        &sequences.lengths,
        saved,
        &mut shape,
        &mut allowances,
    )?;
    Ok(Restored {
        template: Template::restored(&search, &shape, &allowances),
        quorum: search.quorum,
        next: (search.next_letters.into(), search.next_number),
    })
}
