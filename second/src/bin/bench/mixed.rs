//! A candidate of a mixed search beside one of an exact search, over the same
//! letters and the same template, both of the library. The mixed legs are held
//! to the second program, as far as that comes, before they are timed.

use crate::inputs;
use crate::linked;
use crate::timing::{in_turn, row, title, Times, Work};
use crate::walk::{Place, Rows, Search, Went};

/// The steps that are taken of a search over random letters.
const STEPS: u64 = 20_000;
/// The rows of the tables: more than are listed in so many steps.
const ROOM: usize = 20_000;
/// The steps of a mixed search that the second program takes too.
const HELD: u64 = 150;

/// How often each leg is timed.
const ROUNDS: usize = 20;

/// What a mixed candidate may take, in times of an exact one.
const TARGET: f64 = 1.3;

/// The steps that are taken of a search that lists nothing.
const MANY_STEPS: u64 = 100_000;

/// Searches that list nothing: what a candidate alone takes. In the last three
/// the sequences are too short for the last component.
fn walks() -> Vec<(String, Search)> {
    let mut searches = Vec::new();
    for letters in [1_000, 8_000, 65_536] {
        for (low, high) in [(0, 0), (0, 255)] {
            let name = format!("NN[{low},{high}]NN[255,255]N, both of two sequences, {letters}");
            searches.push((name, inputs::walk(letters, low, high)));
        }
    }
    let short = [(4, 0, 0), (4, 0, 100), (1, 255, 255)];
    searches.push((
        "NNNN[0,100]NNNN[255,255]N, 12 % of 1,024 sequences of 64".to_string(),
        inputs::random(1_024, 64, &short, 123),
    ));
    let few = [(3, 0, 0), (3, 0, 30), (1, 255, 255)];
    searches.push((
        "NNN[0,30]NNN[255,255]N, 2 of 64 sequences of 128".to_string(),
        inputs::random(64, 128, &few, 2),
    ));
    let far = (1, 255, 255);
    searches.push((
        "NNNN[0,255]NNNN[255,255]N[255,255]N[255,255]N, 18 of 20 sequences of 600".to_string(),
        inputs::random(20, 600, &[(4, 0, 0), (4, 0, 255), far, far, far], 18),
    ));
    searches
}

/// Searches over random letters, also of as many letters as a mixed motif has.
/// What a listed motif takes more, its weighted support, counts in; in the mixed
/// profile there are more of them, and they have more occurrences.
fn searches() -> Vec<(String, Search)> {
    let deep = [(6, 0, 0), (5, 0, 30), (5, 0, 30)];
    let narrow = [(12, 0, 0), (4, 0, 0)];
    let mut searches: Vec<_> = inputs::searches()
        .into_iter()
        .map(|(name, search, _)| (name.to_string(), search))
        .collect();
    searches.extend([
        (
            "N x 6[0,30]N x 5[0,30]N x 5, one sequence of 65,536".to_string(),
            inputs::random(1, 65_536, &deep, 1),
        ),
        (
            "N x 12[0,0]N x 4, 2 of 64 sequences of 1,024".to_string(),
            inputs::random(64, 1_024, &narrow, 2),
        ),
        (
            "N x 12[0,0]N x 4, one sequence of 65,536".to_string(),
            inputs::random(1, 65_536, &narrow, 1),
        ),
    ]);
    searches
}

/// A leg from the first candidate on.
fn leg<'a>(search: &'a Search, budget: u64) -> impl FnMut(&mut Rows) -> Went + 'a {
    let saved = linked::saved_at(search, Place::FIRST);
    move |tables| linked::leg(search, &saved, budget, tables)
}

/// The library's first steps of a search, held to the second program's.
fn held(search: &Search) {
    let mut tables = Rows::with_room(ROOM);
    let went = leg(search, HELD)(&mut tables);
    let template = second::Template {
        profile: search.profile,
        components: search.components.clone(),
    };
    let (letters, lengths) = (&search.set.letters, &search.set.lengths);
    let begun = second::begin(letters, lengths, &template, search.quorum).expect("a search");
    let mut beside = Rows::with_room(ROOM);
    let (m, s, w) = (
        &mut beside.motifs,
        &mut beside.supports,
        &mut beside.weights,
    );
    let there = second::leg(letters, lengths, &begun, HELD, m, s, w);
    assert_eq!((went.steps, went.rows), (there.steps, there.rows));
    let place = (went.place.letters, went.place.number);
    let next = there.search.place;
    assert_eq!(place, (usize::from(next.letters), next.number));
    assert!(tables == beside, "the programs differ");
}

/// A row of a table: what a candidate takes in each profile, the least time of
/// the first steps less that of a leg that takes none. Gives the ratio, that of
/// the middle times being in brackets.
fn measured(name: &str, exact: &Search, allowance: u16, budget: u64) -> f64 {
    let mixed = exact.mixed(allowance);
    held(&mixed);
    let both = [exact, &mixed];
    let went = both.map(|search| leg(search, budget)(&mut Rows::with_room(ROOM)));
    let mut works: Vec<Work> = Vec::new();
    for search in both {
        for budget in [0, budget] {
            let mut run = leg(search, budget);
            let mut tables = Rows::with_room(ROOM);
            works.push(Box::new(move || run(&mut tables).steps));
        }
    }
    let times = in_turn(ROUNDS, &mut works);
    let each = |of: fn(&Times) -> f64| {
        [0, 1].map(|at| {
            let [none, all] = [0, 1].map(|with| of(&times[2 * at + with]));
            (all - none) / went[at].steps as f64
        })
    };
    let (least, middle) = (each(Times::least), each(Times::middle));
    let mut cells = vec![name.to_string(), allowance.to_string()];
    for (went, time) in went.iter().zip(least) {
        cells.extend([went.steps.to_string(), went.rows.to_string()]);
        cells.push(format!("{:.3}", time * 1e6));
    }
    let [least, middle] = [least, middle].map(|[exact, mixed]| mixed / exact);
    cells.push(format!("{least:.2} ({middle:.2})"));
    row(&cells);
    least
}

/// A table of such rows, and which of them are above the target.
fn table(searches: Vec<(String, Search)>, allowances: &[u16], budget: u64) {
    title(&[
        "search",
        "allowance",
        "exact, steps",
        "rows",
        "us a candidate",
        "mixed, steps",
        "rows",
        "us a candidate",
        "mixed / exact",
    ]);
    let mut above = Vec::new();
    for (name, exact) in searches {
        for &allowance in allowances {
            if measured(&name, &exact, allowance, budget) > TARGET {
                above.push(format!("{name}, allowance {allowance}"));
            }
        }
    }
    let above = match above.is_empty() {
        true => "none".to_string(),
        false => above.join("; "),
    };
    println!("\nabove {TARGET}: {above}\n");
}

/// All tables. With an allowance of 0 a mixed search has the very candidates and
/// rows of the exact one.
pub fn beside_exact() {
    println!("A candidate of a mixed search beside the same one of an exact search\n");
    let both = walks().into_iter().chain(searches()).collect();
    table(both, &[0], STEPS);
    println!("The same with mixed letters allowed, in searches that list nothing\n");
    table(walks(), &[1, 2], MANY_STEPS);
    println!("The same over random letters, the first {STEPS} steps of each search\n");
    table(searches(), &[1, 2], STEPS);
}
