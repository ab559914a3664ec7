//! "The printing program."

use crate::leg::{leg, Answer};
use crate::place::Place;
use crate::refusal::Refusal;
use crate::search::begin;
use crate::template::Template;
use crate::text::{read, Text};

/// The rows of the tables that the printing program lends to a leg.
const ROWS: usize = 1_024;

/// Everything that the printing program prints for this standard input: "a
/// line a row (motif in the template's shape, support, weighted support),
/// then `end`, steps, rows; or only `refused`, number, place."
pub fn printout(input: &[u8]) -> Vec<u8> {
    let printed = match read(input).and_then(|text| list(&text)) {
        Ok(printed) => printed,
        Err(refusal) => format!("refused {} {}\n", refusal.number, refusal.place),
    };
    printed.into_bytes()
}

/// The whole list, legs laid end to end.
///
/// No sum passes 64 bits: the prefixes of one length have less than 2^57
/// occurrences together, so there are less than 32 * 2^57 frequent ones, and
/// "the whole search takes 4 times the number of frequent prefixes".
fn list(text: &Text) -> Result<String, Refusal> {
    let mut search = begin(&text.letters, &text.lengths, &text.template, text.quorum)?;
    let mut printed = String::new();
    let mut steps = 0;
    let mut rows = 0;
    loop {
        let mut motifs = [0; ROWS];
        let mut supports = [0; ROWS];
        let mut weights = [0; ROWS];
        let leg = leg(
            &text.letters,
            &text.lengths,
            &search,
            u64::MAX,
            &mut motifs,
            &mut supports,
            &mut weights,
        );
        for ((motif, support), weight) in motifs.iter().zip(supports).zip(weights).take(leg.rows) {
            let shape = motif_in_shape(&text.template, *motif);
            printed.push_str(&format!("{shape} {support} {weight}\n"));
        }
        steps += leg.steps;
        rows += leg.rows;
        search = leg.search;
        match leg.answer {
            Answer::Ended => {
                printed.push_str(&format!("end {steps} {rows}\n"));
                return Ok(printed);
            }
            Answer::Spent | Answer::Full => {}
            Answer::Refused(refusal) => return Err(refusal),
        }
    }
}

/// "motif in the template's shape": the components' letters with [l,u]
/// between. The template was checked, so K is at most 32.
fn motif_in_shape(template: &Template, motif: u64) -> String {
    let letters_in_all = template.letters_in_all() as u8;
    let values = Place {
        letters: letters_in_all,
        number: motif,
    }
    .values(template.profile);
    let names = template.profile.letters();
    let mut letters = values
        .iter()
        .map(|value| char::from(names[usize::from(*value)]));
    let mut shape = String::new();
    for (index, component) in template.components.iter().enumerate() {
        if index > 0 {
            shape.push_str(&format!("[{},{}]", component.low, component.high));
        }
        shape.extend(letters.by_ref().take(component.length as usize));
    }
    shape
}
