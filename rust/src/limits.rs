//! The limits that `include/tulfasheq.h` names, and how many elements to make
//! room for.

/// The most sequences.
pub const SEQUENCES: usize = 1_024;
/// The most letters of them all.
pub const LETTERS: usize = 65_536;
/// The most components of a template.
pub const COMPONENTS: usize = 6;
/// The most letters of a component.
pub const LENGTH: u16 = 12;
/// The most letters of a motif in the exact profile.
pub const MOTIF: u64 = 32;
/// The most letters of a motif in the mixed profile.
pub const MIXED_MOTIF: u64 = 16;
/// The longest gap.
pub const GAP: u16 = 255;

/// The exact profile: a motif's letters are A, C, G, T.
pub const EXACT: u16 = 0;
/// The mixed profile: these, and letters that stand for several bases.
pub const MIXED: u16 = 1;

/// The numbers of a shape.
pub const SHAPE: usize = 3 * COMPONENTS;
/// The bytes of a save whose template has as many components as can be.
pub const SAVED_MOST: usize = 16 * (COMPONENTS + 2);
