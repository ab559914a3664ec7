//! Requests, and what the second program answers to them: what the linked
//! library is compared by (tests/library_compare.rs). Every request follows from
//! a group's seed.

mod alphabets;
pub mod answer;
mod begins;
mod convert;
mod crossings;
mod damaged;
mod fasta;
mod faults;
pub mod files;
mod forgeries;
mod joins;
mod legs;
mod mixed_begins;
mod profiles;
pub mod random;
mod recoveries;
mod relays;
pub mod request;
mod saves;
mod seen;
mod shown;
mod words;

use crate::Profile;
use random::Random;
use request::Request;

pub use seen::Seen;

/// A group of requests: its name, its seed, and what makes it.
pub struct Group {
    pub name: String,
    pub seed: u64,
    make: Make,
}

#[derive(Clone, Copy)]
enum Make {
    In(Profile, fn(Profile, &mut Random) -> Vec<Request>),
    Plain(fn(&mut Random) -> Vec<Request>),
}

impl Group {
    pub fn requests(&self) -> Vec<Request> {
        let random = &mut Random::new(self.seed);
        match self.make {
            Make::In(profile, make) => make(profile, random),
            Make::Plain(make) => make(random),
        }
    }
}

/// What is made in each profile, with the seeds of the exact and the mixed one.
type InEach = (
    &'static str,
    [u64; 2],
    fn(Profile, &mut Random) -> Vec<Request>,
);

const IN_EACH: [InEach; 8] = [
    (
        "legs laid end to end, saved and restored between",
        [102, 132],
        relays::requests,
    ),
    (
        "legs where words of 64 letters or sequences end",
        [129, 133],
        words::requests,
    ),
    (
        "legs and saves of forged searches",
        [103, 134],
        forgeries::any,
    ),
    (
        "legs and saves of searches whose place breaks its rule",
        [113, 135],
        forgeries::place_rules,
    ),
    ("saves", [104, 136], saves::saves),
    ("restores of other bytes", [106, 137], saves::restores),
    (
        "restores of saves with several faults",
        [127, 139],
        faults::several_faults,
    ),
    ("recoveries", [107, 140], recoveries::requests),
];

/// What has no profile, is made in both at once, or differs in them.
type Plain = (&'static str, u64, fn(&mut Random) -> Vec<Request>);

const PLAIN: [Plain; 16] = [
    ("new searches", 101, begins::requests),
    ("new searches with allowances", 131, mixed_begins::requests),
    (
        "calls with a number that is no profile's",
        141,
        profiles::requests,
    ),
    (
        "restores of damaged saves of E",
        105,
        damaged::one_byte_of_e,
    ),
    (
        "restores of damaged saves over eight sequences",
        120,
        damaged::one_byte_of_eight,
    ),
    ("restores of damaged saves of 1 component", 121, |random| {
        damaged::one_byte(1, random)
    }),
    ("restores of damaged saves of 2 components", 122, |random| {
        damaged::one_byte(2, random)
    }),
    ("restores of damaged saves of 3 components", 123, |random| {
        damaged::one_byte(3, random)
    }),
    ("restores of damaged saves of 4 components", 124, |random| {
        damaged::one_byte(4, random)
    }),
    ("restores of damaged saves of 5 components", 125, |random| {
        damaged::one_byte(5, random)
    }),
    ("restores of damaged saves of 6 components", 126, |random| {
        damaged::one_byte(6, random)
    }),
    (
        "restores of damaged saves of mixed searches",
        138,
        damaged::one_mixed_byte,
    ),
    ("joins", 108, joins::requests),
    (
        "FASTA files read one record after another",
        110,
        fasta::reads,
    ),
    ("FASTA files from any cursor", 111, fasta::calls),
    (
        "FASTA files with every byte among the letters",
        128,
        fasta::every_byte,
    ),
];

pub fn groups() -> Vec<Group> {
    let mut groups = Vec::new();
    for (name, seed, make) in PLAIN {
        groups.push(Group {
            name: name.to_string(),
            seed,
            make: Make::Plain(make),
        });
    }
    for (name, seeds, make) in IN_EACH {
        for (profile, seed) in [Profile::Exact, Profile::Mixed].into_iter().zip(seeds) {
            groups.push(Group {
                name: format!("{profile:?}: {name}"),
                seed,
                make: Make::In(profile, make),
            });
        }
    }
    groups
}
