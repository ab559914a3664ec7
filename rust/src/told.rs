//! What a caller passes to the library and what is told back, put together.

/// What a refused call tells: a number of the header's, and a place.
#[derive(Clone, Copy, Debug, PartialEq, Eq)]
pub struct Refusal {
    /// The number, 1 to 24. 18 is the printing program's alone.
    pub number: u8,
    /// The place told: an offset, a component's number, a record's number, or
    /// 0.
    pub place: u64,
}

/// A template as the library takes it: its profile, how many components, the
/// length, l and u of each in turn, and the allowance of each.
#[derive(Clone, Copy, Debug, PartialEq, Eq)]
pub struct Template<'a> {
    /// The profile: 0 exact, 1 mixed.
    pub profile: u16,
    /// The number of components.
    pub components: u16,
    /// Their shape. What it does not reach is 0.
    pub shape: &'a [u16],
    /// Their allowances. What they do not reach is 0.
    pub allowances: &'a [u16],
}

impl<'a> Template<'a> {
    /// A template of the exact profile, without allowances.
    pub const fn exact(components: u16, shape: &'a [u16]) -> Template<'a> {
        Template {
            profile: 0,
            components,
            shape,
            allowances: &[],
        }
    }
}

/// What the library tells of a search, beside its template's shape and
/// allowances.
#[derive(Clone, Copy, Debug, Default, PartialEq, Eq)]
pub struct Search {
    /// The profile: 0 exact, 1 mixed.
    pub profile: u16,
    /// The number of components.
    pub components: u16,
    /// The quorum.
    pub quorum: u64,
    /// The number of sequences.
    pub sequences: u32,
    /// The letters in all.
    pub total: u32,
    /// The letters of the next candidate.
    pub next_letters: u8,
    /// The number of the next candidate.
    pub next_number: u64,
}

/// Why a leg stopped.
#[derive(Clone, Copy, Debug, PartialEq, Eq)]
pub enum Stop {
    /// There is no candidate left.
    Ended,
    /// The budget is used up.
    Spent,
    /// The next motif has no room in the tables.
    Full,
}

/// What a leg tells.
#[derive(Clone, Copy, Debug, PartialEq, Eq)]
pub struct Leg {
    /// Why it stopped.
    pub stop: Stop,
    /// The candidates examined.
    pub steps: u64,
    /// The rows written.
    pub rows: usize,
}

/// What a recovery tells.
#[derive(Clone, Copy, Debug, PartialEq, Eq)]
pub struct Recovered {
    /// The rows written.
    pub rows: usize,
    /// The list's length.
    pub length: u64,
}
