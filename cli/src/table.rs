//! The table of a search: tab-separated lines under a header, and last, only
//! when the search has ended, a comment that tells what was searched.

use crate::digits::number;
use crate::sequences::Sequences;
use crate::sum::Sum;
use crate::template::Template;
use std::fmt;

/// The first line.
pub const HEADER: &str = "motif\tsupport\toccurrences\n";

/// A line for each row of a leg.
pub fn rows(
    template: &Template,
    motifs: &[u64],
    supports: &[u32],
    weights: &[u64],
    to: &mut Vec<u8>,
) {
    let mut spelled = template.spelled();
    for ((motif, support), weight) in motifs.iter().zip(supports).zip(weights) {
        to.extend_from_slice(spelled.to(*motif));
        number(b'\t', (*support).into(), to);
        number(b'\t', *weight, to);
        to.push(b'\n');
    }
}

/// The last line of a search that has ended: `# end: ` and then names and
/// values with a space between them, one from the next by a comma and a space.
#[derive(Clone, Debug, PartialEq, Eq)]
pub struct End {
    /// The candidates examined.
    pub steps: u64,
    /// The rows of the table.
    pub rows: u64,
    /// What was searched, which tables of earlier versions do not tell.
    pub searched: Option<Searched>,
    /// The sum of the lines before this one, line ends included, by words:
    /// where there is what was searched, there is this.
    pub table: Option<Sum>,
}

/// What a search was of.
#[derive(Clone, Debug, PartialEq, Eq)]
pub struct Searched {
    /// The template's text.
    pub template: String,
    /// The allowances, or `no` of an exact search.
    pub mixed: String,
    pub quorum: u64,
    pub sequences: u64,
    pub letters: u64,
    /// The sum of the sequences.
    pub sum: Sum,
}

impl Searched {
    pub fn of(sequences: &Sequences, template: &Template, quorum: u64) -> Searched {
        Searched {
            template: template.text.clone(),
            mixed: template.mixed_or_no(),
            quorum,
            sequences: sequences.count(),
            letters: sequences.letters.len() as u64,
            sum: sequences.sum(),
        }
    }
}

impl fmt::Display for End {
    fn fmt(&self, to: &mut fmt::Formatter) -> fmt::Result {
        write!(to, "# end: steps {}, rows {}", self.steps, self.rows)?;
        if let Some(of) = &self.searched {
            write!(
                to,
                ", template {}, mixed {}, quorum {}, sequences {}, letters {}, sum {}",
                of.template, of.mixed, of.quorum, of.sequences, of.letters, of.sum
            )?;
        }
        if let Some(table) = self.table {
            write!(to, ", table {table}")?;
        }
        Ok(())
    }
}

impl End {
    /// Reads a last line, without its line end: only what is written as one.
    pub fn read(line: &str) -> Option<End> {
        let mut parts = line.strip_prefix("# end: ")?.split(", ");
        let mut value = |name: &str| parts.next()?.strip_prefix(name)?.strip_prefix(' ');
        let mut end = End {
            steps: value("steps")?.parse().ok()?,
            rows: value("rows")?.parse().ok()?,
            searched: None,
            table: None,
        };
        if let Some(template) = value("template") {
            end.searched = Some(Searched {
                template: template.to_string(),
                mixed: value("mixed")?.to_string(),
                quorum: value("quorum")?.parse().ok()?,
                sequences: value("sequences")?.parse().ok()?,
                letters: value("letters")?.parse().ok()?,
                sum: Sum::read(value("sum")?)?,
            });
            end.table = Some(Sum::read(value("table")?)?);
        }
        (end.to_string() == line).then_some(end)
    }
}

#[cfg(test)]
mod tests {
    use super::{rows, End, Searched, HEADER};
    use crate::sum::{Sum, Words};
    use crate::template::Template;

    #[test]
    fn a_row_is_a_line() {
        let template = Template::read("NN[0,3]N", None).expect("a template");
        let mut lines = HEADER.as_bytes().to_vec();
        let (motifs, supports) = ([0, 6, 63], [1, 10, 1_024]);
        let weights = [1, 12, u64::MAX];
        rows(&template, &motifs, &supports, &weights, &mut lines);
        assert_eq!(
            String::from_utf8_lossy(&lines),
            "motif\tsupport\toccurrences\nAA[0,3]A\t1\t1\nAC[0,3]G\t10\t12\n\
             TT[0,3]T\t1024\t18446744073709551615\n"
        );
    }

    fn end(steps: u64, rows: u64) -> End {
        let searched = Some(Searched {
            template: "NNN[0,3]NN".to_string(),
            mixed: "1,0".to_string(),
            quorum: 13,
            sequences: 26,
            letters: 2_626,
            sum: Sum::of(b"ACGT\n"),
        });
        End {
            steps,
            rows,
            searched,
            table: Some(Words::of(HEADER.as_bytes())),
        }
    }

    #[test]
    fn the_last_line_tells_what_was_searched() {
        assert_eq!(
            end(700, 88).to_string(),
            "# end: steps 700, rows 88, template NNN[0,3]NN, mixed 1,0, quorum 13, sequences 26, letters 2626, sum a1b24650290ce18c, table b3fd65353a4a371c"
        );
        for (steps, rows) in [(0, 0), (1, 1), (1_003, 13), (u64::MAX, u64::MAX)] {
            let end = end(steps, rows);
            assert_eq!(End::read(&end.to_string()), Some(end));
        }
    }

    #[test]
    fn one_of_an_earlier_version_counts_the_rows() {
        let end = End::read("# end: steps 700, rows 88").expect("a last line");
        assert_eq!((end.steps, end.rows), (700, 88));
        assert_eq!((end.searched, end.table), (None, None));
    }

    #[test]
    fn what_is_cut_short_or_made_longer_is_no_last_line() {
        let whole = end(1_003, 13).to_string();
        // Up to the rows it is one of an earlier version, or of fewer rows.
        let short = "# end: steps 1003, rows 1".len();
        for size in 0..whole.len() {
            let cut = End::read(&whole[..size]);
            if size == short || size == short + 1 {
                assert_eq!(cut.map(|end| end.searched), Some(None));
            } else {
                assert_eq!(cut, None, "{}", &whole[..size]);
            }
        }
        for more in [" ", "0", ",", ", row 1"] {
            assert_eq!(End::read(&format!("{whole}{more}")), None);
        }
        for other in [
            "# end: steps 1, row 3",
            "# steps 1, rows 3",
            "# end: steps +1, rows 3",
        ] {
            assert_eq!(End::read(other), None);
        }
    }
}
