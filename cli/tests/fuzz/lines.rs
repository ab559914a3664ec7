//! Command lines made of random pieces.

use second::requests::random::Random;
use std::ffi::OsString;
use std::os::unix::ffi::OsStringExt;

/// Templates, good and bad. A good one is short, so that no search is long.
const TEMPLATES: [&str; 20] = [
    "N",
    "NN",
    "NNN",
    "NN[0,3]N",
    "N[1,2]N[0,255]N",
    "N[0,0]N[0,0]N[0,0]N",
    "N[0,1]N[0,1]N[0,1]N[0,1]N[0,1]N[0,1]N",
    "NNNNNNNNNNNNN",
    "NNNNNNNNNNNN[0,0]NNNNNNNNNNNN[0,0]NNNNNNNNN",
    "N[3,1]N",
    "N[0,256]N",
    "N[0,18446744073709551616]N",
    "N[4294967296,4294967297]N",
    "N[01,2]N",
    "N[,]N",
    "N[1,2",
    "[0,1]",
    "nn",
    "Nä",
    "N[0,1]\u{1f9ec}",
];

/// Quorums, motifs, allowances, rows: words that are numbers or nearly.
const VALUES: [&str; 24] = [
    "1",
    "2",
    "3",
    "0",
    "00",
    "-1",
    "+1",
    "1e3",
    "1,0",
    "0,1,0",
    ",",
    "1,,1",
    "50%",
    "12.5%",
    "0.000000001%",
    "99.999999999%",
    "999.999999999%",
    "1000%",
    "%",
    ".%",
    "4294967296",
    "18446744073709551615",
    "18446744073709551616",
    "340282366920938463463374607431768211456",
];

/// Motifs.
const MOTIFS: [&str; 6] = ["A", "AC", "AC[0,3]G", "R[1,2]Y[0,255]V", "A[", "\u{e4}"];

/// Paths that are read; `a.fa` is new in each run, and `done` is a job.
const PATHS: [&str; 11] = [
    "a.fa",
    "a.fa",
    "a.fa",
    "-",
    ".",
    "none.fa",
    "a.fa/x",
    "empty.fa",
    "/proc/self/mem",
    "done",
    "job",
];

/// Paths that are written.
const OUTS: [&str; 5] = ["out.tsv", "out.tsv", "none/out.tsv", ".", "/dev/full"];

/// Options, known and not, without their values.
const OPTIONS: [&str; 14] = [
    "--out",
    "--mixed",
    "--job",
    "--list",
    "--from",
    "--rows",
    "--quiet",
    "--bed",
    "--gff",
    "--tsv",
    "--help",
    "--",
    "--nonsense",
    "-q",
];

const COMMANDS: [&str; 7] = [
    "search", "resume", "status", "places", "help", "--help", "serach",
];

/// Any word.
fn any(random: &mut Random) -> OsString {
    match random.below(9) {
        0 => random.pick(&TEMPLATES).into(),
        1 => random.pick(&VALUES).into(),
        2 => random.pick(&MOTIFS).into(),
        3 => random.pick(&PATHS).into(),
        4 => random.pick(&OPTIONS).into(),
        5 => random.pick(&COMMANDS).into(),
        6 => OsString::new(),
        7 => {
            let length = random.pick(&[1, 100, 5_000, 120_000]);
            random
                .pick(&["N", "9", "[", "A", "-", "\u{e4}", "1,"])
                .repeat(length / 2)
                .into()
        }
        _ => {
            let length = random.within(1, 12) as usize;
            let mut bytes = random.bytes(length);
            // No word has a byte that is 0.
            bytes.iter_mut().for_each(|byte| *byte = (*byte).max(1));
            OsString::from_vec(bytes)
        }
    }
}

/// An option that a search takes, with a value.
fn option(random: &mut Random) -> Vec<OsString> {
    let (name, value) = match random.below(8) {
        0 => ("--mixed", random.pick(&VALUES)),
        1 | 2 => ("--mixed", random.pick(&["0", "1", "1,0", "0,1,1"])),
        3 => ("--job", random.pick(&["a.fa", "done", ".", "none/job"])),
        4 => ("--job", "job"),
        5 | 6 => ("--out", random.pick(&OUTS)),
        _ => return vec![random.pick(&["--quiet", "--upper"]).into()],
    };
    match random.once_in(3) {
        true => vec![format!("{name}={value}").into()],
        false => vec![name.into(), value.into()],
    }
}

/// A command line that is nearly right: some words are changed, put in or left
/// out.
pub fn line(random: &mut Random) -> Vec<OsString> {
    let mut words: Vec<OsString> = match random.below(8) {
        0 => vec!["resume".into(), random.pick(&PATHS).into()],
        1 => vec!["status".into(), random.pick(&PATHS).into()],
        2 => vec![
            "places".into(),
            random.pick(&TEMPLATES).into(),
            random.pick(&MOTIFS).into(),
            random.pick(&PATHS).into(),
        ],
        _ => vec![
            "search".into(),
            random.pick(&TEMPLATES[..6]).into(),
            random.pick(&["1", "2", "50%", "100%"]).into(),
            random.pick(&PATHS[..4]).into(),
        ],
    };
    for _ in 0..random.pick(&[0, 1, 1, 2]) {
        words.extend(option(random));
    }
    for _ in 0..random.pick(&[0, 0, 0, 1, 2]) {
        let at = random.below(words.len() as u64) as usize;
        match random.below(4) {
            0 | 1 => words[at] = any(random),
            2 if words.len() > 1 => drop(words.remove(at)),
            _ => words.insert(at, any(random)),
        }
    }
    words
}
