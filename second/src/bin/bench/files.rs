//! FASTA files read to their end by the library and by `reader`, which finds
//! the ends of its lines one byte after another ("line by line") or as the
//! library does ("in eights"): held to the same names, letters, lengths,
//! cursors and refusals, and then timed.

use crate::reader::{in_eights, one_by_one, Reader};
use crate::timing::{in_turn, ratios, row, title, Times, Work};
use second::requests::random::Random;
use second::Refusal;

/// Records of random letters.
#[derive(Clone, Copy)]
struct Records {
    count: usize,
    letters: u64,
    /// The letters of a line, and what ends it.
    line: usize,
    end: &'static str,
    /// In lower case, so that the first record is refused.
    lower: bool,
}

impl Records {
    fn new(count: usize, letters: u64, line: usize, end: &'static str) -> Records {
        Records {
            count,
            letters,
            line,
            end,
            lower: false,
        }
    }

    fn lower_case(self) -> Records {
        Records {
            lower: true,
            ..self
        }
    }

    fn file(self) -> Vec<u8> {
        let Records { letters, end, .. } = self;
        let mut random = Random::new(letters);
        let mut file = Vec::new();
        for number in 1..=self.count {
            file.extend(format!(">record{number} of {letters} letters{end}").bytes());
            let mut all = random.letters(letters, 4);
            if self.lower {
                all.make_ascii_lowercase();
            }
            for line in all.chunks(self.line) {
                file.extend([line, end.as_bytes()].concat());
            }
        }
        file
    }

    fn name(self) -> String {
        let Records {
            count,
            letters,
            line,
            end,
            lower,
        } = self;
        let records = if count == 1 { "record" } else { "records" };
        let case = if lower {
            " in lower case (refused)"
        } else {
            ""
        };
        match letters {
            0 => format!("{count} {records} without letters"),
            _ => format!("{count} {records} of {letters}{case}, lines of {line} ended by {end:?}"),
        }
    }
}

/// What a file is read into.
#[derive(Clone, PartialEq, Eq)]
struct Tables {
    letters: Vec<u8>,
    used: u64,
    lengths: Vec<u32>,
    count: u64,
}

impl Tables {
    fn new(records: Records) -> Tables {
        Tables {
            letters: vec![0; records.count * records.letters as usize],
            used: 0,
            lengths: vec![0; records.count],
            count: 0,
        }
    }

    /// What a call of a reader hands out that is lent these tables, or why it
    /// is refused.
    fn lend<T>(
        &mut self,
        next: impl FnOnce(&mut [u8], &mut u64, &mut [u32], &mut u64) -> Result<Option<T>, Refusal>,
    ) -> Option<Result<T, Refusal>> {
        let (used, count) = (&mut self.used, &mut self.count);
        next(&mut self.letters, used, &mut self.lengths, count).transpose()
    }
}

/// What a call hands out: the next record's name, and the cursor behind the
/// record.
type Handed<'a> = Result<(&'a [u8], u64), Refusal>;

/// A call of the library's reader.
fn by_library<'a>(file: &'a [u8]) -> impl FnMut(&mut Tables) -> Option<Handed<'a>> {
    let mut reader = tulfasheq::Reader::new(file);
    // As the other reader tells it.
    let refusal = |why: tulfasheq::Refusal| Refusal::at(why.number, why.place);
    move |to| {
        let name = to.lend(|l, u, n, c| reader.next(l, u, n, c).map_err(refusal))?;
        Some(name.map(|name| (name, reader.at())))
    }
}

/// The same of `reader`.
fn by_reader<'a>(
    file: &'a [u8],
    find_end: impl Fn(&[u8]) -> Option<usize> + Copy,
) -> impl FnMut(&mut Tables) -> Option<Handed<'a>> {
    let mut reader = Reader::new(file, find_end);
    move |to| {
        let name = to.lend(|l, u, n, c| reader.next(l, u, n, c))?;
        Some(name.map(|name| (name, reader.at())))
    }
}

/// What calls one after another hand out, over what was read before, up to
/// the first refusal.
fn handed<'a, 't>(
    to: &'t mut Tables,
    mut next: impl FnMut(&mut Tables) -> Option<Handed<'a>> + 't,
) -> impl Iterator<Item = Handed<'a>> + 't
where
    'a: 't,
{
    (to.used, to.count) = (0, 0);
    let mut refused = false;
    std::iter::from_fn(move || {
        if refused {
            return None;
        }
        let handed = next(to)?;
        refused = handed.is_err();
        Some(handed)
    })
}

/// The times of the library, and of `reader` line by line and in eights.
fn measure(records: Records, file: &[u8], rounds: usize) -> Vec<Times> {
    let mut library = Tables::new(records);
    let (mut lines, mut eights) = (library.clone(), library.clone());
    let read: Vec<_> = handed(&mut library, by_library(file)).collect();
    assert_eq!(read.len(), records.count);
    assert_eq!(read.iter().any(Result::is_err), records.lower);
    let same = handed(&mut lines, by_reader(file, one_by_one)).eq(read.iter().copied());
    assert!(same && library == lines, "line by line differs");
    let same = handed(&mut eights, by_reader(file, in_eights)).eq(read);
    assert!(same && library == eights, "in eights differs");
    let mut works: Vec<Work> = vec![
        Box::new(|| handed(&mut library, by_library(file)).count() as u64),
        Box::new(|| handed(&mut lines, by_reader(file, one_by_one)).count() as u64),
        Box::new(|| handed(&mut eights, by_reader(file, in_eights)).count() as u64),
    ];
    in_turn(rounds, &mut works)
}

/// Files of long records in long lines, with either line end, and in short
/// lines; of many short records; of records without letters; and of one record
/// that is refused.
pub fn readers() {
    println!("Reading FASTA\n");
    title(&[
        "file",
        "bytes",
        "library, ns / byte",
        "line by line",
        "in eights",
        "library / line by line",
        "library / in eights",
    ]);
    for (records, rounds) in [
        (Records::new(10, 60_000, 60, "\n"), 200),
        (Records::new(10, 60_000, 60, "\r\n"), 200),
        (Records::new(10, 60_000, 7, "\n"), 200),
        (Records::new(10, 60_000, 1, "\n"), 100),
        (Records::new(1_024, 64, 60, "\n"), 1_000),
        (Records::new(1_024, 0, 60, "\n"), 1_000),
        (Records::new(1, 600_000, 60, "\n").lower_case(), 200),
    ] {
        let file = records.file();
        let times = measure(records, &file, rounds);
        let each = |times: &Times| format!("{:.2}", times.least() * 1e9 / file.len() as f64);
        row(&[
            records.name(),
            file.len().to_string(),
            each(&times[0]),
            each(&times[1]),
            each(&times[2]),
            ratios(&times[0], &times[1]),
            ratios(&times[0], &times[2]),
        ]);
    }
    println!();
}
