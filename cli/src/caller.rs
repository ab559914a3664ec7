//! A thread of its own that calls the library, so that who waits for a call can
//! look at the clock and at signals, and need not wait for its end.

use crate::failure::{Answer, Failure};
use crate::pace::{Ask, ROOM};
use crate::processor;
use crate::sequences::Sequences;
use crate::STACK;
use library::{Leg, Refusal};
use std::sync::mpsc::{channel, Receiver, RecvTimeoutError, Sender};
use std::thread;
use std::time::Duration;

/// How often who waits for a call looks around.
const LOOK: Duration = Duration::from_millis(25);

/// What goes to the thread with a call, and comes back from it.
pub struct Call {
    /// The saved search: where the call begins, and then where it ended.
    pub saved: Vec<u8>,
    pub motifs: Vec<u64>,
    pub supports: Vec<u32>,
    pub weights: Vec<u64>,
}

/// A call that has ended.
pub struct Ended {
    pub call: Call,
    pub leg: Result<Leg, Refusal>,
    /// The processor time of the call.
    pub took: Duration,
}

/// The thread. It ends with the program, or when nothing can be sent to it.
pub struct Caller {
    to: Sender<(Call, Ask)>,
    from: Receiver<Ended>,
}

impl Caller {
    pub fn new(sequences: &Sequences) -> Answer<Caller> {
        let (letters, lengths) = (sequences.letters.clone(), sequences.lengths.clone());
        let (to, asked) = channel();
        let (ended, from) = channel();
        thread::Builder::new()
            .stack_size(STACK)
            .spawn(move || serve(&letters, &lengths, &asked, &ended))
            .map_err(|error| Failure::io("a thread", &error))?;
        Ok(Caller { to, from })
    }

    /// Makes a call, and waits for its end as long as `goes_on` says so.
    pub fn call(
        &self,
        call: Call,
        ask: Ask,
        mut goes_on: impl FnMut() -> bool,
    ) -> Answer<Option<Ended>> {
        let fault = || Failure::broken("a fault of the program itself");
        self.to.send((call, ask)).map_err(|_| fault())?;
        loop {
            match self.from.recv_timeout(LOOK) {
                Ok(ended) => return Ok(Some(ended)),
                Err(RecvTimeoutError::Disconnected) => return Err(fault()),
                Err(RecvTimeoutError::Timeout) if goes_on() => {}
                Err(RecvTimeoutError::Timeout) => return Ok(None),
            }
        }
    }
}

/// Makes calls until no more are asked for.
fn serve(letters: &[u8], lengths: &[u32], asked: &Receiver<(Call, Ask)>, to: &Sender<Ended>) {
    for (mut call, ask) in asked {
        let begun = processor::time();
        let rows = ask.rows.min(ROOM) as usize;
        let leg = library::leg(
            letters,
            lengths,
            &mut call.saved,
            ask.steps,
            &mut call.motifs[..rows],
            &mut call.supports[..rows],
            &mut call.weights[..rows],
        );
        let took = processor::time().saturating_sub(begun);
        if to.send(Ended { call, leg, took }).is_err() {
            return;
        }
    }
}
