//! A second program for structured motifs, written straight from the
//! requirements paper ("the paper" below) so that another program can be
//! checked against it. It is plain and slow on purpose: every candidate is
//! looked for afresh in every sequence.
//!
//! Each function quotes the sentence of the paper that it follows, or of the
//! request that came after it.

#![forbid(unsafe_code)]
#![warn(missing_docs)]

mod ask;
mod fasta;
mod join;
mod leg;
mod occurrence;
mod place;
mod printing;
mod profile;
mod recovery;
mod refusal;
mod saved;
mod search;
mod sequences;
mod template;
mod text;

// Names that say it all.
#[allow(missing_docs)]
pub mod requests;

pub use ask::{candidates, support, weighted_support, Candidate, Candidates};
pub use fasta::{lines_text, next_record, records, Handed, Record};
pub use join::join;
pub use leg::{leg, Answer, Leg};
pub use place::Place;
pub use printing::printout;
pub use profile::{profile_of, Profile};
pub use recovery::{recover, Recovered};
pub use refusal::Refusal;
pub use saved::{restore, save};
pub use search::{begin, Search};
pub use template::{Component, Template};
