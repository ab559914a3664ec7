//! The constants of `src/limits.rs` beside `include/tulfasheq.h`, where each
//! stands under the same name: a number there, or a formula.

use tulfasheq::limits::*;

const HEADER: &str = include_str!("../../include/tulfasheq.h");
const SOURCE: &str = include_str!("../src/limits.rs");

/// What the header has for TULFASHEQ_`name`, a macro or a name of an enum,
/// without the comment behind it.
fn in_header(name: &str) -> &'static str {
    let stated = |line: &'static str| {
        let (line, between) = match line.strip_prefix("#define ") {
            Some(rest) => (rest, " "),
            None => (line.trim_start(), " = "),
        };
        let rest = line.strip_prefix("TULFASHEQ_")?.strip_prefix(name)?;
        rest.strip_prefix(between)
    };
    let mut found = HEADER.lines().filter_map(stated);
    let what = found.next();
    let what = what.unwrap_or_else(|| panic!("no TULFASHEQ_{name} in the header"));
    assert_eq!(found.next(), None, "TULFASHEQ_{name} twice in the header");
    let (what, _) = what.split_once("/*").unwrap_or((what, ""));
    what.trim().trim_end_matches(',')
}

/// The constants that are numbers in the header.
const NUMBERS: [(&str, u64); 9] = [
    ("SEQUENCES", SEQUENCES as u64),
    ("LETTERS", LETTERS as u64),
    ("COMPONENTS", COMPONENTS as u64),
    ("LENGTH", LENGTH as u64),
    ("MOTIF", MOTIF),
    ("MIXED_MOTIF", MIXED_MOTIF),
    ("GAP", GAP as u64),
    ("EXACT", EXACT as u64),
    ("MIXED", MIXED as u64),
];

/// Those that are formulas in the header.
const FORMULAS: [&str; 2] = ["SHAPE", "SAVED_MOST"];

#[test]
fn numbers_are_the_headers() {
    for (name, number) in NUMBERS {
        assert_eq!(in_header(name), number.to_string(), "{name}");
    }
}

#[test]
fn formulas_are_the_headers() {
    assert_eq!(in_header("SHAPE"), "(3 * TULFASHEQ_COMPONENTS)");
    assert_eq!(SHAPE, 3 * COMPONENTS);

    let saved = |k: usize| 16 * (k + 2);
    let most = "TULFASHEQ_SAVED(TULFASHEQ_COMPONENTS)";
    assert_eq!(in_header("SAVED(k)"), "(16 * ((size_t)(k) + 2))");
    assert_eq!(in_header("SAVED_MOST"), most);
    assert_eq!(SAVED_MOST, saved(COMPONENTS));
}

/// A constant that is added is compared above, or this fails.
#[test]
fn every_constant_is_compared() {
    let compared = NUMBERS.map(|(name, _)| name);
    let compared: Vec<_> = compared.into_iter().chain(FORMULAS).collect();
    let name = |line: &'static str| line.strip_prefix("pub const ")?.split(':').next();
    let constants: Vec<_> = SOURCE.lines().filter_map(name).collect();
    assert_eq!(constants, compared);
}

#[test]
#[should_panic(expected = "no TULFASHEQ_SHAPES in the header")]
fn a_macro_that_is_missing() {
    in_header("SHAPES");
}
