//! The measures, each a table printed as it is taken. A time is the least of
//! its rounds, and so is what follows from it; a ratio of the middle times
//! stands in brackets behind that of the least. Where a time is a difference,
//! it is the middle one.

use crate::inputs;
use crate::legs::{agreed, legs, Leg};
use crate::recoveries;
use crate::timing::{in_turn, ratio, ratios, row, title, Times, Work};
use crate::walk::Place;

/// The gap ranges that are measured.
const RANGES: [(u16, u16); 3] = [(0, 0), (0, 30), (0, 255)];

/// Legs over 65,536 letters that take no step, at a place of twelve letters and
/// at one as deep as can be; and what it takes more to examine the place, which
/// occurs, without room for its row.
pub fn no_step() {
    println!("A leg over one sequence of 65,536 that takes no step\n");
    title(&[
        "at a place of",
        "library, us",
        "bits",
        "with one candidate examined, library, us",
        "bits",
        "library / bits",
    ]);
    for (name, search) in [
        ("12 letters, a gap [0,30]", inputs::one_sequence(0, 30)),
        ("32 letters, five gaps [0,255]", inputs::deepest()),
    ] {
        let place = Place::of(&search.set.letters[..search.depth()]);
        let mut works = Vec::new();
        for budget in [0, 1] {
            let mut legs = legs(&search, place, budget, 0);
            legs.truncate(2);
            agreed(&mut legs);
            works.extend(legs.into_iter().map(Leg::work));
        }
        let times = in_turn(400, &mut works);
        let mut cells = vec![name.into()];
        cells.extend(times.iter().map(|t| format!("{:.0}", t.least() * 1e6)));
        cells.push(ratios(&times[2], &times[3]));
        row(&cells);
    }
    println!();
}

/// The pairs of programs whose times are compared: the library, bits and
/// positions by their places.
const PAIRS: [(usize, usize); 3] = [(0, 1), (0, 2), (1, 2)];
const PAIRED: [&str; 3] = [
    "time, library / bits",
    "library / positions",
    "bits / positions",
];

/// What a candidate takes, by letters and by gap range: a whole search less a
/// leg of it that takes no step.
pub fn candidates() {
    println!("A search that lists nothing, NN[low,high]NN[255,255]N, both of two sequences\n");
    let names = [
        "letters",
        "gap",
        "library, us a candidate",
        "bits",
        "positions",
    ];
    title(&[&names[..], &PAIRED].concat());
    let mut widest = Vec::new();
    for (letters, rounds) in [(1_000, 100), (8_000, 60), (65_536, 20)] {
        let mut library = Vec::new();
        for (low, high) in RANGES {
            let search = inputs::walk(letters, low, high);
            let mut none = legs(&search, Place::FIRST, 0, 0);
            let mut whole = legs(&search, Place::FIRST, u64::MAX, 0);
            agreed(&mut none);
            let steps = agreed(&mut whole).steps as f64;
            let mut works: Vec<Work> = none.into_iter().chain(whole).map(Leg::work).collect();
            let times = in_turn(rounds, &mut works);
            let each = [0, 1, 2].map(|at| times[at + 3].on_top_of(&times[at]) / steps);
            let mut cells = vec![format!("{letters}"), format!("[{low},{high}]")];
            cells.extend(each.map(|time| format!("{:.3}", time * 1e6)));
            cells.extend(PAIRS.map(|(a, b)| ratio(each[a], each[b])));
            row(&cells);
            library.push(each[0]);
        }
        widest.push(ratio(library[2], library[0]));
    }
    println!("\nlibrary, [0,255] / [0,0]: {}\n", widest.join(", "));
}

/// Searches over random letters, each from its first candidate on, up to so many
/// steps.
pub fn searches() {
    println!("Searches over random letters\n");
    let names = ["search", "steps", "rows"];
    let rates = ["library, candidates / s", "bits", "positions"];
    title(&[names, rates, PAIRED].concat());
    // Held to the same answers, and not timed.
    for search in inputs::short_last_lines() {
        agreed(&mut legs(&search, Place::FIRST, 50_000, 100_000));
    }
    for (name, search, budget) in inputs::searches() {
        let mut legs = legs(&search, Place::FIRST, budget, 100_000);
        let went = agreed(&mut legs);
        let mut works: Vec<Work> = legs.into_iter().map(Leg::work).collect();
        let times = in_turn(10, &mut works);
        let rate = |times: &Times| format!("{:.0}", went.steps as f64 / times.least());
        let mut cells = vec![name.into(), went.steps.to_string(), went.rows.to_string()];
        cells.extend(times.iter().map(rate));
        cells.extend(PAIRS.map(|(a, b)| ratios(&times[a], &times[b])));
        row(&cells);
    }
    println!();
}

/// Recoveries: very many rows, a page of them, and a motif that is nowhere.
pub fn occurrences() {
    println!("Recovery\n");
    title(&[
        "of",
        "rows",
        "list",
        "library, ms",
        "passes",
        "positions",
        "library / passes",
        "library / positions",
    ]);
    let many = inputs::many_occurrences();
    let few = inputs::few_occurrences();
    for (name, search, room, rounds) in [
        (
            "AAA, N[0,30]N[0,30]N over 65,536 letters",
            &many,
            2_000_000,
            15,
        ),
        ("its first page", &many, 1_000, 40),
        (
            "A x 12, six components over 1,024 sequences of 64",
            &few,
            1_000,
            40,
        ),
    ] {
        let ((rows, length), times) = recoveries::measure(search, 0, room, rounds);
        let mut cells = vec![name.into(), rows.to_string(), length.to_string()];
        cells.extend(
            times
                .iter()
                .map(|times| format!("{:.2}", times.least() * 1e3)),
        );
        cells.push(ratios(&times[0], &times[1]));
        cells.push(ratios(&times[0], &times[2]));
        row(&cells);
    }
    println!();
}
