//! The library beside Rust programs, on the same inputs and in the same run:
//! `bits`, which keeps rows of bits along the path as the library does, and has
//! means that the library has not; `positions`, which keeps position lists;
//! `passes`, which recovers by the library's own passes; and `reader`, which
//! reads FASTA. Each is held to the library's answers before it is timed. And
//! the library's mixed searches beside its exact ones. `second/bench.sh` runs it;
//! docs/BENCHMARKS.md says what is measured and how it is meant.

mod bits;
mod checks;
mod files;
mod inputs;
mod legs;
mod letters;
mod lines;
mod linked;
mod measures;
mod mixed;
mod passes;
mod positions;
mod reader;
mod recover;
mod recoveries;
mod timing;
mod walk;
mod words;

/// The measures, by the names that they can be asked for by.
const MEASURES: [(&str, fn()); 7] = [
    ("checks", checks::of_a_new_search),
    ("legs", measures::no_step),
    ("walk", measures::candidates),
    ("searches", measures::searches),
    ("mixed", mixed::beside_exact),
    ("recovery", measures::occurrences),
    ("reading", files::readers),
];

fn main() {
    timing::keep_memory();
    let asked: Vec<String> = std::env::args().skip(1).collect();
    for (name, measure) in MEASURES {
        if asked.is_empty() || asked.iter().any(|asked| asked == name) {
            measure();
        }
    }
}
