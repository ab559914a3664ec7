//! A request made of the linked library, with its answer laid out as the second
//! program's are. What the header says of numbers told is held to in
//! `tulfasheq`.

use super::{allowances, as_second, shape};
use second::requests::answer::{told, told_handed, told_refusal};
use second::requests::answer::{Answer, Told, DONE, FULL, SPENT};
use second::requests::request::{Kind, Request, Slot, Value};
use second::{Handed, Profile};
use tulfasheq::{Reader, Refusal, Search, Stop, Template};

/// What stands behind a lent array, and has to stay.
const BEHIND: u8 = 0x5A;

/// The search that the library says some bytes hold.
fn restored(request: &Request, saved: &[u8]) -> Result<Value, Refusal> {
    let (letters, lengths) = (&request.set.letters[..], &request.set.lengths[..]);
    // Two numbers more than are written.
    let (mut shape, mut allowances) = ([7; 20], [7; 8]);
    let told = tulfasheq::restore(letters, lengths, saved, &mut shape, &mut allowances);
    let told = told.inspect_err(|_| {
        assert_eq!(shape, [7; 20], "a refused restore wrote a shape");
        assert_eq!(allowances, [7; 8], "a refused restore wrote allowances");
    })?;
    assert_eq!(shape[18..], [7; 2], "a restore wrote past the shape");
    assert_eq!(allowances[6..], [7; 2], "and past the allowances");
    let mut value = Value {
        profile: match told.profile {
            0 => Profile::Exact,
            1 => Profile::Mixed,
            other => panic!("a profile of {other}"),
        },
        count: told.components,
        quorum: told.quorum,
        sequences: told.sequences,
        letters: told.total,
        place: told.next_letters,
        number: told.next_number,
        ..Value::default()
    };
    let numbers = shape.chunks(3).zip(allowances);
    for (slot, (numbers, allowance)) in value.slots.iter_mut().zip(numbers) {
        *slot = Slot::new(numbers[0], numbers[1], numbers[2]).allowing(allowance);
    }
    Ok(value)
}

/// A leg of the search that the saved bytes hold, which are then those of the
/// new place.
fn leg(request: &Request, answer: &mut Answer) -> Result<Told, Refusal> {
    let size = answer.saved.len();
    answer.saved.extend([BEHIND; 16]);
    let leg = tulfasheq::leg(
        &request.set.letters,
        &request.set.lengths,
        &mut answer.saved[..size],
        request.budget,
        &mut answer.motifs,
        &mut answer.supports,
        &mut answer.weights,
    );
    let behind = answer.saved.split_off(size);
    assert_eq!(behind, [BEHIND; 16], "a leg wrote behind its save");
    let leg = leg?;
    let outcome = match leg.stop {
        Stop::Ended => DONE,
        Stop::Spent => SPENT,
        Stop::Full => FULL,
    };
    let value = restored(request, &answer.saved).expect("what a leg saves is restored");
    Ok(told(outcome, leg.steps, leg.rows as u64, &value))
}

/// The reader's next record, as the second program tells it. Its name is known
/// by where it lies in the file.
fn next_record(
    reader: &mut Reader,
    request: &Request,
    answer: &mut Answer,
) -> Result<Option<Handed>, Refusal> {
    let (mut used, mut count) = (request.used, request.count);
    let (letters, lengths) = (&mut answer.saved, &mut answer.rows);
    let Some(name) = reader.next(letters, &mut used, lengths, &mut count)? else {
        return Ok(None);
    };
    assert_eq!(count, request.count + 1);
    let start = name.as_ptr() as usize - request.set.letters.as_ptr() as usize;
    Ok(Some(Handed {
        name: start..start + name.len(),
        letters: (used - request.used) as usize,
        at: reader.at() as usize,
    }))
}

/// Makes the call, over the answer's tables; gives what is told.
fn call(request: &Request, answer: &mut Answer) -> Result<Told, Refusal> {
    let (letters, lengths) = (&request.set.letters[..], &request.set.lengths[..]);
    let value = &request.value;
    let profile = request.no_profile.unwrap_or(value.profile.number());
    let (shape, allowances) = (shape(value), allowances(value));
    let template = Template {
        profile,
        components: value.count,
        shape: &shape,
        allowances: &allowances,
    };
    let none = Value::default();
    Ok(match request.kind {
        Kind::Begin => {
            let saved = &mut answer.saved;
            let size = tulfasheq::begin(letters, lengths, template, value.quorum, saved)?;
            let begun = restored(request, &saved[..size]).expect("a new search is restored");
            told(DONE, size as u64, 0, &begun)
        }
        Kind::Leg => leg(request, answer)?,
        Kind::Save => {
            let search = Search {
                profile,
                components: value.count,
                quorum: value.quorum,
                sequences: value.sequences,
                total: value.letters,
                next_letters: value.place,
                next_number: value.number,
            };
            let out = &mut answer.saved;
            let size = tulfasheq::save(letters, lengths, &search, &shape, &allowances, out)?;
            told(DONE, size as u64, 0, &none)
        }
        Kind::Restore => told(DONE, 0, 0, &restored(request, &request.saved)?),
        Kind::Recover => {
            let (motif, first) = (request.motif, request.first_row);
            let rows = &mut answer.rows;
            let found = tulfasheq::recover(letters, lengths, template, motif, first, rows)?;
            told(DONE, found.rows as u64, found.length, &none)
        }
        Kind::Join => {
            let (head, low, high) = (request.head, request.low, request.high);
            let partners = &request.partners;
            let kept = tulfasheq::join(lengths, partners, head, low, high, &mut answer.rows)?;
            told(DONE, kept as u64, 0, &none)
        }
        Kind::Fasta => {
            let mut reader = Reader::from(letters, request.at);
            let handed = next_record(&mut reader, request, answer);
            told_handed(reader.at(), handed.map_err(as_second))
        }
    })
}

/// What the library answers to a request: to a leg, what it answers to that of
/// the saved bytes. Tables that it does not write stay as they were lent.
pub fn answered(request: &Request) -> Answer {
    let mut answer = Answer::lent(request);
    let told = call(request, &mut answer);
    answer.told = told.unwrap_or_else(|refusal| told_refusal(as_second(refusal)));
    answer
}
