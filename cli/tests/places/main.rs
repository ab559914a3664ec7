//! `places`, against the second program, the rules of the formats, and itself.

#[path = "../common/mod.rs"]
mod common;

mod alone;
mod case;
mod counted;
mod formats;
mod lists;
mod narrowed;
mod recovered;
mod refused;
mod seen;
