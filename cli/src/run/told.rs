//! What is said of a search: at its beginning, on its way and at its end.

use crate::counted;
use crate::progress;
use crate::table::Searched;
use std::time::Duration;

/// What is searched, and the rows so far of a search that goes on.
pub fn opening(of: &Searched, steps: u64, rows: u64) -> String {
    let so_far = if steps > 0 {
        format!(", {} so far", counted::of(rows, "row"))
    } else {
        String::new()
    };
    format!(
        "tulfasheq: {}, {}, quorum {}{so_far}",
        counted::of(of.sequences, "sequence"),
        counted::of(of.letters, "letter"),
        counted::grouped(of.quorum)
    )
}

/// What there was of a search, and how long it took: the whole of it, or this
/// run of one of which no more is known.
pub fn closing(rows: u64, steps: u64, time: Duration, whole: bool) -> String {
    format!(
        "tulfasheq: {}, {}, {}{}",
        counted::of(rows, "row"),
        counted::of(steps, "step"),
        progress::spent(time),
        if whole { "" } else { " in this run" }
    )
}

/// The share of letter order that is done, and the rows so far.
pub fn how_far(share: f64, rows: u64) -> String {
    let share = (share * 10_000.0).floor() / 100.0;
    let plural = if rows == 1 { "" } else { "s" };
    format!("{share:.2} %, {} row{plural}", counted::short(rows))
}

#[cfg(test)]
mod tests {
    use super::{closing, how_far, opening};
    use crate::progress::line;
    use crate::sum::Sum;
    use crate::table::Searched;
    use std::time::Duration;

    #[test]
    fn what_is_searched_is_told() {
        let mut of = Searched {
            template: "NN".to_string(),
            mixed: "no".to_string(),
            quorum: 1,
            sequences: 1,
            letters: 1,
            sum: Sum::NONE,
        };
        assert_eq!(
            opening(&of, 0, 0),
            "tulfasheq: 1 sequence, 1 letter, quorum 1"
        );
        (of.sequences, of.letters, of.quorum) = (1_024, 65_536, 1_000);
        assert_eq!(
            opening(&of, 1, 0),
            "tulfasheq: 1,024 sequences, 65,536 letters, quorum 1,000, 0 rows so far"
        );
    }

    #[test]
    fn what_there_was_is_told_with_its_time() {
        let told = |millis| closing(1, 700, Duration::from_millis(millis), true);
        assert_eq!(told(149), "tulfasheq: 1 row, 700 steps, 0.1 s");
        assert_eq!(told(59_940), "tulfasheq: 1 row, 700 steps, 59.9 s");
        assert_eq!(told(59_990), "tulfasheq: 1 row, 700 steps, 59.9 s");
        assert_eq!(told(60_000), "tulfasheq: 1 row, 700 steps, 0:01:00");
        assert_eq!(
            closing(2, 1, Duration::from_millis(61_500), false),
            "tulfasheq: 2 rows, 1 step, 0:01:01 in this run"
        );
    }

    #[test]
    fn how_far_it_is_fits_40_columns() {
        let whole = |share, rows, hours: u64| {
            let spent = Duration::from_secs(hours * 3_600 + 3_599);
            let line = line(&how_far(share, rows), spent);
            assert!(line.chars().count() <= 39, "{line}");
            line
        };
        assert_eq!(
            whole(0.296_999, 4_588_027, 0),
            "29.69 %, 4,588,027 rows, 0:59:59"
        );
        assert_eq!(whole(0.0, 1, 0), "0.00 %, 1 row, 0:59:59");
        // A hundred years, and as many rows as can be counted.
        for rows in [999_999_999, 1_000_000_000, 999_999_999_999, u64::MAX] {
            whole(0.999_999_9, rows, 876_000);
        }
    }
}
