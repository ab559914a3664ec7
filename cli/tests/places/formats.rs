//! BED and GFF3, read back by the formats' own rules, have the rows of the
//! plain table.

use crate::case::{columns, lines, number, text, Case, USUAL};
use crate::common::{run, word, Random, Scratch};
use std::collections::HashMap;

/// An occurrence, as it is read back: the motif, the record's name, and the
/// first letter of each component.
type Row = (String, Vec<u8>, Vec<u64>);

/// What a test knows of a case: each component's letters, each record's, and
/// the names and letters of those that have any, in their order.
struct Known {
    components: Vec<u64>,
    records: HashMap<Vec<u8>, u64>,
    regions: Vec<(Vec<u8>, u64)>,
}

impl Known {
    fn of(case: &Case) -> Known {
        let lengths = case.sequences.iter().map(|s| s.len() as u64);
        let records = case.names.iter().cloned().zip(lengths);
        Known {
            regions: records.clone().filter(|(_, length)| *length > 0).collect(),
            components: case
                .template
                .components
                .iter()
                .map(|c| c.length.into())
                .collect(),
            records: records.collect(),
        }
    }
}

/// The numbers of a list with commas between them, which may also end with one.
fn numbers(column: &[u8]) -> Vec<u64> {
    let column = column.strip_suffix(b",").unwrap_or(column);
    column.split(|b| *b == b',').map(number).collect()
}

/// Reads a line of BED with twelve columns.
fn bed(line: &[u8], known: &Known) -> Row {
    let columns = columns(line);
    assert_eq!(columns.len(), 12);
    let [start, end, score, thick_start, thick_end, count] =
        [1, 2, 4, 6, 7, 9].map(|i: usize| number(&columns[i]));
    assert!(start < end && end <= known.records[&columns[0]]);
    assert!(score <= 1_000);
    assert!(["+", "-", "."].contains(&&text(&columns[5])[..]));
    assert!(start <= thick_start && thick_start <= thick_end && thick_end <= end);
    assert_eq!(columns[8], b"0");
    let (sizes, starts) = (numbers(&columns[10]), numbers(&columns[11]));
    assert_eq!(
        (sizes.len(), starts.len()),
        (count as usize, count as usize)
    );
    assert!(sizes.iter().all(|size| *size > 0));
    assert_eq!(starts[0], 0);
    assert_eq!(
        start + starts[starts.len() - 1] + sizes[sizes.len() - 1],
        end
    );
    for i in 1..starts.len() {
        assert!(starts[i - 1] + sizes[i - 1] <= starts[i], "blocks overlap");
    }
    assert_eq!(sizes, known.components);
    assert_eq!((thick_start, thick_end), (start, end));
    let starts = starts.iter().map(|s| start + s + 1).collect();
    (text(&columns[3]), columns[0].clone(), starts)
}

/// Takes the escapes out, after which no byte was left that had to be escaped.
fn unescaped(bytes: &[u8], stands: impl Fn(u8) -> bool) -> Vec<u8> {
    let mut plain = Vec::new();
    let mut at = 0;
    while at < bytes.len() {
        if bytes[at] == b'%' {
            let digits = text(&bytes[at + 1..at + 3]);
            let byte = u8::from_str_radix(&digits, 16).expect("two digits");
            assert!(!stands(byte), "{byte} is escaped and need not be");
            plain.push(byte);
            at += 3;
        } else {
            assert!(stands(bytes[at]), "{} is not escaped", bytes[at]);
            plain.push(bytes[at]);
            at += 1;
        }
    }
    plain
}

/// A line's first column, or the name of a region, without escapes.
fn unescaped_name(bytes: &[u8]) -> Vec<u8> {
    unescaped(bytes, |b| {
        b.is_ascii_alphanumeric() || b".:^*$@!+_?-|".contains(&b)
    })
}

/// Reads the first lines of GFF3: the version and the regions, which are those
/// of all records that have letters.
fn head<'a>(lines: &'a [Vec<u8>], known: &Known) -> &'a [Vec<u8>] {
    assert_eq!(lines[0], b"##gff-version 3");
    let (regions, rest) = lines[1..].split_at(known.regions.len());
    for (line, (name, length)) in regions.iter().zip(&known.regions) {
        let words: Vec<&[u8]> = line.split(|b| *b == b' ').collect();
        assert_eq!((words.len(), words[0]), (4, &b"##sequence-region"[..]));
        assert_eq!(unescaped_name(words[1]), *name);
        assert_eq!((number(words[2]), number(words[3])), (1, *length));
    }
    rest
}

/// Reads GFF3 whose occurrences are numbered from one on.
fn gff(printed: &[u8], from: usize, known: &Known) -> Vec<Row> {
    let lines = lines(printed);
    let mut rows: Vec<Row> = Vec::new();
    let mut ends = Vec::new();
    let mut list = None;
    for line in head(&lines, known) {
        let columns = columns(line);
        assert_eq!(columns.len(), 9);
        let name = unescaped_name(&columns[0]);
        assert_eq!(columns[1], b"tulfasheq");
        let (start, end) = (number(&columns[3]), number(&columns[4]));
        assert!(1 <= start && start <= end && end <= known.records[&name]);
        assert_eq!(
            [&columns[5], &columns[6], &columns[7]],
            [".", "+", "."].map(|c| c.as_bytes())
        );
        let attributes: HashMap<String, String> = text(&columns[8])
            .split(';')
            .map(|attribute| {
                let (tag, value) = attribute.split_once('=').expect("a tag and a value");
                let value = unescaped(value.as_bytes(), |b| {
                    !b.is_ascii_control() && !b";=&,%".contains(&b)
                });
                (tag.to_string(), text(&value))
            })
            .collect();
        match &text(&columns[2])[..] {
            "nucleotide_motif" => {
                let (sum, row) = attributes["ID"].split_once('.').expect("a row");
                assert_eq!(row, (from + rows.len()).to_string());
                // The sum of the list, which is one for all of its rows.
                assert_eq!(list.get_or_insert(sum.to_string()), sum);
                assert!(sum.starts_with('o') && sum.len() == 17, "{sum}");
                let starts = match known.components.len() {
                    1 => vec![start],
                    _ => Vec::new(),
                };
                rows.push((attributes["Name"].clone(), name, starts));
                ends.push((start, end));
            }
            "DNA_motif" => {
                assert_eq!(attributes.len(), 1);
                let row = rows.len() - 1;
                let sum = list.clone().expect("a line before");
                assert_eq!(attributes["Parent"], format!("{sum}.{}", from + row));
                let (_, parent, starts) = &mut rows[row];
                assert_eq!(*parent, name);
                assert_eq!(end + 1 - start, known.components[starts.len()]);
                starts.push(start);
                if starts.len() == 1 {
                    assert_eq!(start, ends[row].0);
                }
                if starts.len() == known.components.len() {
                    assert_eq!(end, ends[row].1);
                }
            }
            other => panic!("a line of type {other}"),
        }
    }
    for ((_, _, starts), (start, end)) in rows.iter().zip(ends) {
        assert_eq!(starts.len(), known.components.len());
        assert!(known.components.len() > 1 || end + 1 - start == known.components[0]);
    }
    rows
}

#[test]
fn bed_and_gff_keep_their_rules_and_have_the_rows_of_the_table() {
    let mut random = Random::new(3);
    let (mut many, mut touching) = (0, 0);
    for _ in 0..80 {
        let case = Case::random(&mut random, USUAL);
        let known = Known::of(&case);
        let (_, motif) = case.motif(&mut random);
        let scratch = Scratch::new();
        let file = scratch.file("file.fa", case.file(&mut random));
        let ask = |more: &[&str]| {
            let mut words = case.words();
            words.extend([motif.clone(), word(&file).to_string()]);
            words.insert(0, "places".to_string());
            words.extend(more.iter().map(ToString::to_string));
            run(&words).printed()
        };
        let rows: Vec<Row> = lines(&ask(&["--tsv"]))[1..]
            .iter()
            .map(|line| {
                let columns = columns(line);
                let starts = columns[3..].iter().map(|c| number(c)).collect();
                let name = unescaped(&columns[1], |b| !b.is_ascii_control() && b != b'%');
                (text(&columns[0]), name, starts)
            })
            .collect();
        let read = |line: &Vec<u8>| bed(line, &known);
        let from_bed: Vec<Row> = lines(&ask(&["--bed"])).iter().map(read).collect();
        assert_eq!(from_bed, rows);
        assert_eq!(gff(&ask(&["--gff"]), 0, &known), rows);

        let from = random.below(rows.len() as u64 + 1) as usize;
        let page = format!("--from={from}");
        let from_bed: Vec<Row> = lines(&ask(&["--bed", &page])).iter().map(read).collect();
        assert_eq!(from_bed, rows[from..]);
        assert_eq!(gff(&ask(&["--gff", &page]), from, &known), rows[from..]);
        assert_eq!(ask(&["--bed", "--rows=0"]), b"");
        let none = lines(&ask(&["--gff", "--rows=0"]));
        assert!(head(&none, &known).is_empty());

        many += usize::from(rows.len() > 1 && known.components.len() > 1);
        touching += usize::from(rows.iter().any(|(_, _, starts)| {
            let ends = starts.iter().zip(&known.components).map(|(s, c)| s + c);
            starts[1..]
                .iter()
                .zip(ends)
                .any(|(start, end)| *start == end)
        }));
    }
    assert!(many > 10 && touching > 5, "{many} {touching}");
}
