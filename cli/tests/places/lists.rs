//! The places of a table's rows and of a job's are those of each motif, one
//! after the other.

use crate::case::{columns, lines, number, text, Case, USUAL};
use crate::common::{fasta, program, run, word, Ran, Random, Scratch};
use std::fs;
use std::path::{Path, PathBuf};
use std::process::Stdio;
use std::thread::sleep;
use std::time::{Duration, Instant};

const FORMATS: [&str; 3] = ["--tsv", "--bed", "--gff"];

/// A search that has ended, printed and as a job.
struct Searched {
    scratch: Scratch,
    template: Vec<String>,
    file: String,
    list: String,
    job: String,
    /// The motifs, and how often each occurs.
    rows: Vec<(String, u64)>,
}

impl Searched {
    /// A random search that lists some motifs, but not many.
    fn random(random: &mut Random) -> Searched {
        loop {
            let case = Case::random(random, USUAL);
            let scratch = Scratch::new();
            let file = scratch.file("file.fa", case.file(random));
            let file = word(&file).to_string();
            let quorum = 1 + random.below(case.names.len() as u64);
            let mut words = case.words();
            words.insert(0, "search".to_string());
            words.insert(2, quorum.to_string());
            words.insert(3, file.clone());
            words.push("--quiet".to_string());
            let table = run(&words).printed();
            let rows: Vec<(String, u64)> = lines(&table)[1..]
                .iter()
                .filter(|line| !line.starts_with(b"#"))
                .map(|line| {
                    let columns = columns(line);
                    (text(&columns[0]), number(&columns[2]))
                })
                .collect();
            if !(2..30).contains(&rows.len()) {
                continue;
            }
            let list = word(&scratch.file("rows.tsv", table)).to_string();
            let job = word(&scratch.path("job")).to_string();
            words.extend(["--job".to_string(), job.clone()]);
            run(&words).printed();
            return Searched {
                template: case.words(),
                scratch,
                file,
                list,
                job,
                rows,
            };
        }
    }

    /// The places of one motif, or of the list.
    fn places(&self, motif: Option<&str>, more: &[&str]) -> Ran {
        let mut words = vec!["places".to_string()];
        words.extend(self.template.iter().cloned());
        words.extend(motif.map(str::to_string));
        words.push(self.file.clone());
        words.extend(more.iter().map(ToString::to_string));
        run(&words)
    }

    fn of_list(&self, list: &str, more: &[&str]) -> Ran {
        self.places(None, &[&["--list", list], more].concat())
    }

    fn of_job(&self, more: &[&str]) -> Ran {
        run(&[&["places", "--job", &self.job], more].concat())
    }
}

/// The lines below the header of a format.
fn body(format: &str, printed: &[u8]) -> Vec<Vec<u8>> {
    let mut lines = lines(printed);
    match format {
        "--bed" => lines,
        "--gff" => lines.split_off(lines.iter().take_while(|l| l.starts_with(b"##")).count()),
        _ => lines.split_off(1),
    }
}

/// A line without the sum and the number of its occurrence.
fn unnumbered(line: &[u8]) -> String {
    let line = String::from_utf8_lossy(line).into_owned();
    let Some(at) = line.find("=o") else {
        return line;
    };
    let after = line[at + 2..].trim_start_matches(|c: char| c.is_ascii_hexdigit() || c == '.');
    format!("{}{after}", &line[..at])
}

/// The IDs of GFF3: the sum of the list and the row of each.
fn ids(printed: &[u8]) -> Vec<(String, u64)> {
    body("--gff", printed)
        .iter()
        .filter_map(|line| Some(text(line).split_once("ID=o")?.1.to_string()))
        .map(|rest| {
            let id = rest.split(';').next().unwrap_or("");
            let (sum, row) = id.split_once('.').expect("a sum and a row");
            (sum.to_string(), number(row.as_bytes()))
        })
        .collect()
}

#[test]
fn a_list_and_a_job_have_the_places_of_each_row() {
    let mut random = Random::new(4);
    for _ in 0..12 {
        let searched = Searched::random(&mut random);
        for format in FORMATS {
            let all = searched.of_list(&searched.list, &[format]).printed();
            assert_eq!(searched.of_job(&[format]).printed(), all);
            let mut laid = Vec::new();
            for (motif, occurrences) in &searched.rows {
                let one = searched.places(Some(motif), &[format]).printed();
                let one = body(format, &one);
                let count = one
                    .iter()
                    .filter(|line| format != "--gff" || text(line).contains("ID="))
                    .count();
                assert_eq!(count as u64, *occurrences, "{motif}");
                laid.extend(one);
            }
            let body = body(format, &all);
            if format == "--gff" {
                let each = |lines: &[Vec<u8>]| lines.iter().map(|l| unnumbered(l)).collect();
                let (body, laid): (Vec<String>, Vec<String>) = (each(&body), each(&laid));
                assert_eq!(body, laid);
            } else {
                assert_eq!(body, laid);
            }
        }
    }
}

#[test]
fn pages_count_over_all_motifs() {
    let mut random = Random::new(5);
    for _ in 0..12 {
        let searched = Searched::random(&mut random);
        let all = body("--tsv", &searched.of_job(&[]).printed());
        for _ in 0..4 {
            let from = random.below(all.len() as u64 + 1) as usize;
            let rows = random.below(all.len() as u64 + 3) as usize;
            let end = all.len().min(from + rows);
            let page = [format!("--from={from}"), format!("--rows={rows}")];
            let page = [&page[0][..], &page[1][..]];
            for ran in [
                searched.of_job(&page),
                searched.of_list(&searched.list, &page),
            ] {
                assert_eq!(body("--tsv", &ran.printed()), all[from..end]);
            }
            // The occurrences of GFF keep their numbers in the whole list.
            let gff = searched.of_job(&[page[0], page[1], "--gff"]).printed();
            let whole = ids(&searched.of_list(&searched.list, &["--gff"]).printed());
            assert_eq!(ids(&gff), whole[from..end]);
            let wanted: Vec<u64> = (from as u64..end as u64).collect();
            let numbers: Vec<u64> = ids(&gff).iter().map(|(_, row)| *row).collect();
            assert_eq!(numbers, wanted);
        }
        let above = format!("--from={}", all.len() + 1);
        let said = searched.of_job(&[&above]).said(3);
        assert!(
            said.contains(&format!("the list has {} row", all.len())),
            "{said}"
        );
        assert!(said.contains("refusal 15"), "{said}");
    }
}

#[test]
fn a_table_that_is_not_whole_is_taken_and_said_to_be_so() {
    let searched = Searched::random(&mut Random::new(6));
    let table = fs::read_to_string(&searched.list).expect("the table");
    let printed = searched.of_list(&searched.list, &[]).printed();
    let of = |lines: &[&str]| {
        let cut = searched.scratch.file("cut.tsv", lines.concat());
        searched.of_list(word(&cut), &[])
    };
    let lines: Vec<&str> = table.split_inclusive('\n').collect();
    let last = lines.len() - 1;

    // Without its last line, or with a row less than that counts: what is
    // written is whole, and the status tells that the table is not.
    let ran = of(&lines[..last]);
    assert_eq!(ran.status, Some(8), "{}", ran.err);
    assert!(ran.out == printed);
    assert!(ran.err.contains("cut.tsv: it is not whole"), "{}", ran.err);
    let ran = of(&[&lines[..1], &lines[2..]].concat());
    assert_eq!(ran.status, Some(8));
    assert!(ran.out.len() < printed.len());
    assert!(ran.err.contains("cut.tsv: it is not whole"), "{}", ran.err);
    let cut = word(&searched.scratch.path("cut.tsv")).to_string();
    let out = searched.scratch.path("out.tsv");
    let ran = searched.of_list(&cut, &["--out", word(&out)]);
    assert_eq!(ran.status, Some(8), "{}", ran.err);
    assert_eq!(
        fs::read(&out).expect("it is written"),
        of(&[&lines[..1], &lines[2..]].concat()).out
    );
    // With other comments, and line ends as elsewhere.
    let more: String = lines.iter().map(|l| format!("# more\n{l}")).collect();
    assert_eq!(of(&[&more]).printed(), printed);
    assert_eq!(of(&[&table.replace('\n', "\r\n")]).printed(), printed);
}

/// Waits until a job has saved some rows: whether it has.
fn wait_for_rows(job: &Path) -> bool {
    let begun = Instant::now();
    while begun.elapsed() < Duration::from_secs(30) {
        let state = fs::read_to_string(job.join("state")).unwrap_or_default();
        if state.contains("\nrows ") && !state.contains("\nrows 0\n") {
            return true;
        }
        sleep(Duration::from_millis(10));
    }
    false
}

/// The rows of a job's table that its state counts, as a table.
fn counted(job: &Path) -> PathBuf {
    let state = fs::read_to_string(job.join("state")).expect("a state");
    let bytes = state.lines().find_map(|line| line.strip_prefix("bytes "));
    let bytes: usize = bytes.and_then(|b| b.parse().ok()).expect("its bytes");
    let table = fs::read(job.join("rows.tsv")).expect("a table");
    let path = job.with_extension("tsv");
    fs::write(&path, &table[..bytes]).expect("a new file");
    path
}

#[test]
fn a_job_that_was_stopped_has_the_places_of_its_rows_so_far() {
    let scratch = Scratch::new();
    let mut random = Random::new(7);
    // The first motif in letter order is listed at once, and the last ones
    // much later.
    let sequences: Vec<Vec<u8>> = (0..40)
        .map(|_| [&[b'A'; 15], &random.letters(1_000)[..]].concat())
        .collect();
    let file = scratch.file("file.fa", fasta(&sequences));
    let job = scratch.path("job");
    let template = "NNNNN[0,60]NNNNN[0,60]NNNNN";
    let mut child = program()
        .args(["search", template, "3", word(&file), "--job", word(&job)])
        .stdout(Stdio::null())
        .spawn()
        .expect("the program starts");
    let saved = wait_for_rows(&job);
    child.kill().expect("it can be ended");
    child.wait().expect("it ends");
    assert!(saved, "no rows");

    let page = ["--rows", "1000"];
    let of_job = run(&[&["places", "--job", word(&job)], &page[..]].concat());
    assert_eq!(of_job.status, Some(8), "{}", of_job.err);
    assert!(of_job.err.contains("has not ended"), "{}", of_job.err);
    let list = counted(&job);
    let words = ["places", template, word(&file), "--list", word(&list)];
    let of_list = run(&[&words[..], &page].concat());
    assert_eq!(of_list.status, Some(8), "{}", of_list.err);
    assert!(of_job.out == of_list.out);
    assert!(of_job.out.len() > 1_000);
}
