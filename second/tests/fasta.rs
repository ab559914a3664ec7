//! FASTA in: the sentences of the request, one by one.

mod common;

use common::{refusal, Random};
use second::{lines_text, next_record, records, Handed, Refusal};

/// The name and the letters of every record of a file.
fn listed(file: &[u8]) -> Result<Vec<(String, String)>, Refusal> {
    let text = |bytes: &[u8]| String::from_utf8_lossy(bytes).into_owned();
    let listed = records(file)?;
    let pair = |record: &second::Record| {
        let name = text(&file[record.name.clone()]);
        (name, text(&record.joined(file)))
    };
    Ok(listed.iter().map(pair).collect())
}

/// The file holds these records: name, letters.
fn holds(file: &str, expected: &[(&str, &str)]) {
    let expected: Vec<(String, String)> = expected
        .iter()
        .map(|(name, letters)| (name.to_string(), letters.to_string()))
        .collect();
    assert_eq!(listed(file.as_bytes()), Ok(expected), "{file:?}");
}

/// Tables lent to the reader, and how much of each is used.
#[derive(Clone, Debug, PartialEq)]
struct Tables {
    letters: Vec<u8>,
    used: usize,
    lengths: Vec<u32>,
    count: usize,
}

impl Tables {
    fn new(letters: usize, lengths: usize) -> Tables {
        Tables {
            letters: vec![b'-'; letters],
            used: 0,
            lengths: vec![77; lengths],
            count: 0,
        }
    }

    fn next(&mut self, file: &[u8], at: usize) -> Result<Option<Handed>, Refusal> {
        let (letters, lengths) = (&mut self.letters, &mut self.lengths);
        let handed = next_record(file, at, letters, self.used, lengths, self.count)?;
        if let Some(handed) = &handed {
            self.used += handed.letters;
            self.count += 1;
        }
        Ok(handed)
    }
}

/// A call at this cursor, over these tables, is refused and writes nothing.
fn refuses(file: &[u8], at: usize, tables: &Tables, number: u8, place: u64) {
    let mut after = tables.clone();
    let told = after.next(file, at);
    assert_eq!(
        told,
        Err(refusal(number, place)),
        "{} at {at}",
        file.escape_ascii()
    );
    assert_eq!(after, *tables);
}

#[test]
fn the_records_of_a_file() {
    holds(
        ">p1 promoter\nACG\nTA\n>p2\n",
        &[("p1", "ACGTA"), ("p2", "")],
    );
    holds("", &[]);
    holds(">", &[("", "")]);
    holds(">a\n>b\n>c", &[("a", ""), ("b", ""), ("c", "")]);
}

#[test]
fn the_name_runs_to_the_first_space_tab_or_line_end() {
    for (header, name) in [
        (">one", "one"),
        (">one two", "one"),
        (">one\ttwo three", "one"),
        ("> one", ""),
        (">\tone", ""),
        (">>one>", ">one>"),
        (">o\rne", "o\rne"),
        (">one\r", "one"),
        (">one\r\r", "one\r"),
        (">one \r", "one"),
    ] {
        holds(&format!("{header}\nAC\n"), &[(name, "AC")]);
    }
    // The file's end ends the line, and there a 13 is a byte of it.
    holds(">one", &[("one", "")]);
    holds(">one\r", &[("one\r", "")]);
}

#[test]
fn lines_end_in_10_optionally_after_13_and_the_last_at_the_files_end() {
    let records = [("a", "ACGT"), ("b", "GG")];
    for file in [
        ">a\nAC\nGT\n>b\nGG\n",
        ">a\r\nAC\r\nGT\r\n>b\r\nGG\r\n",
        ">a\nAC\r\nGT\n>b\r\nGG",
    ] {
        holds(file, &records);
    }
    // No 10 follows it, or another 13 stands between.
    holds(">a\nAC\r", &[("a", "AC\r")]);
    holds(">a\nA\rC\n", &[("a", "A\rC")]);
    holds(">a\nAC\r\r\n", &[("a", "AC\r")]);
}

#[test]
fn empty_lines_are_skipped() {
    holds("\n\r\n\n>a\n\nAC\n\r\n\nGT\n\n", &[("a", "ACGT")]);
    holds("\n\n\r\n", &[]);
}

#[test]
fn a_record_begins_only_at_a_lines_first_byte() {
    holds(">a\nAC>b\nGT\n", &[("a", "AC>bGT")]);
    holds(">a\n >b\n", &[("a", " >b")]);
    holds(">a\n\r>b\n", &[("a", "\r>b")]);
}

#[test]
fn text_before_the_first_record() {
    for file in [
        "A",
        "A\n",
        "\nA\n>a\n",
        " >a\n",
        "\r>a\n",
        "\r",
        ";\n>a\n",
        "\n\n\r",
    ] {
        assert_eq!(listed(file.as_bytes()), Err(refusal(19, 0)), "{file:?}");
        refuses(file.as_bytes(), 0, &Tables::new(9, 9), 19, 0);
        // Before all others, also where there is no room at all.
        refuses(file.as_bytes(), 0, &Tables::new(0, 0), 19, 0);
    }
}

#[test]
fn one_call_after_another() {
    let file = b"\n>p1 x\nACG\nTA\n\n>p2\n>p3\nG";
    let mut tables = Tables::new(8, 4);
    let told = |name, letters, at| Ok(Some(Handed { name, letters, at }));
    assert_eq!(tables.next(file, 0), told(2..4, 5, 15));
    assert_eq!(tables.next(file, 15), told(16..18, 0, 19));
    assert_eq!(tables.next(file, 19), told(20..22, 1, 24));
    let expected = Tables {
        letters: b"ACGTAG--".to_vec(),
        used: 6,
        lengths: vec![5, 0, 1, 77],
        count: 3,
    };
    assert_eq!(tables, expected);
    for at in [24, 25, 1_000, usize::MAX] {
        assert_eq!(tables.next(file, at), Ok(None));
    }
    assert_eq!(tables, expected);
}

#[test]
fn no_room_for_the_next_record() {
    let file = b">a\nAC\nG\n>b\nTT\n";
    refuses(file, 0, &Tables::new(2, 1), 20, 0);
    refuses(file, 0, &Tables::new(3, 0), 20, 0);
    assert!(Tables::new(3, 1).next(file, 0).is_ok());
    let mut tables = Tables::new(4, 2);
    tables.next(file, 0).unwrap();
    refuses(file, 8, &tables, 20, 0);
    // A record without letters wants a row, and a buffer that is not passed.
    let file = b">a\n>b\nA";
    assert!(Tables::new(0, 1).next(file, 0).is_ok());
    for (used, count) in [(0, 1), (0, 2), (0, usize::MAX), (4, 0), (usize::MAX, 0)] {
        let tables = Tables {
            used,
            count,
            ..Tables::new(3, 1)
        };
        refuses(file, 0, &tables, 20, 0);
        // The file's end is answered whatever the tables are.
        assert_eq!(tables.clone().next(file, file.len()), Ok(None));
    }
}

#[test]
fn every_byte_of_the_letter_lines_counts_and_room_comes_before_letters() {
    let file = b">a\nAxC\rG\n";
    refuses(file, 0, &Tables::new(4, 1), 20, 0);
    refuses(file, 0, &Tables::new(5, 0), 20, 0);
    refuses(file, 0, &Tables::new(5, 1), 4, 4);
}

#[test]
fn a_byte_that_is_no_letter_is_told_by_its_offset_in_the_file() {
    let tables = Tables::new(50, 5);
    refuses(b">a\nAC\r\nGTN\n", 0, &tables, 4, 9);
    refuses(b">a\n\nacgt", 0, &tables, 4, 4);
    refuses(b">a\nAC\r", 0, &tables, 4, 5);
    refuses(b">a\nAC >b\n", 0, &tables, 4, 5);
    // The next record's bytes are no matter yet.
    let file = b">a\nAC\n>b\nN";
    assert_eq!(tables.clone().next(file, 0).unwrap().unwrap().at, 6);
    refuses(file, 6, &tables, 4, 9);
    for byte in (0..=u8::MAX).filter(|byte| *byte != 10) {
        let file = [b">a\nA", &[byte][..], b"C"].concat();
        if b"ACGT".contains(&byte) {
            assert!(tables.clone().next(&file, 0).is_ok());
        } else {
            refuses(&file, 0, &tables, 4, 4);
        }
    }
}

#[test]
fn a_cursor_reads_the_rest_as_a_file() {
    let file = b">a>b\r\nAC\n";
    let told = |name, letters, at| Ok(Some(Handed { name, letters, at }));
    let next = |at| Tables::new(9, 9).next(file, at);
    assert_eq!(next(0), told(1..4, 2, 9));
    assert_eq!(next(2), told(3..4, 2, 9));
    for at in [1, 3, 4, 6, 7] {
        assert_eq!(next(at), Err(refusal(19, 0)), "{at}");
    }
    // The line end itself: an empty line, and text behind it.
    assert_eq!(next(5), Err(refusal(19, 0)));
    assert_eq!(next(8), Ok(None));
}

#[test]
fn what_the_program_lines_prints() {
    for (file, printed) in [
        ("", ""),
        ("\r\n\n", ""),
        (">a\nAC\nGT\n>b\n>c\nT", "ACGT\n\nT\n"),
        (">a", "\n"),
        ("A\n>a\nN\n", "refused 19 0\n"),
        (">a\nAC\n>b\nGN\n>c\nn\n", "refused 4 10\n"),
    ] {
        assert_eq!(lines_text(file.as_bytes()), printed.as_bytes(), "{file:?}");
    }
    let mut file = b">a\n".to_vec();
    file.resize(1_048_576, b'C');
    let printed = lines_text(&file);
    assert_eq!(printed.len(), file.len() - 3 + 1);
    file.push(b'C');
    assert_eq!(lines_text(&file), b"refused 20 0\n");
    file[0] = b'x';
    assert_eq!(lines_text(&file), b"refused 20 0\n");
}

/// Random files, read record by record into tables of just the room.
#[test]
fn all_calls_together_give_all_records() {
    let mut random = Random::new(63);
    for _ in 0..20_000 {
        let length = random.below(30);
        let file: Vec<u8> = (0..length)
            .map(|_| b">>ACGTACGT\n\n\n\r\t x"[random.below(17) as usize])
            .collect();
        let Ok(all) = records(&file) else {
            refuses(&file, 0, &Tables::new(30, 30), 19, 0);
            continue;
        };
        let letters: Vec<u8> = all.iter().flat_map(|r| r.joined(&file)).collect();
        let mut tables = Tables::new(letters.len(), all.len());
        let mut at = 0;
        let bad = |byte: &u8| !b"ACGT".contains(byte);
        for record in &all {
            if record.joined(&file).iter().any(bad) {
                break;
            }
            let handed = tables.next(&file, at).unwrap().unwrap();
            assert_eq!(handed.name, record.name);
            assert_eq!(handed.letters, record.letters.len());
            at = handed.at;
        }
        if letters.iter().any(bad) {
            let place = tables.next(&file, at).unwrap_err();
            assert_eq!(place.number, 4);
            let printed = format!("refused 4 {}\n", place.place);
            assert_eq!(lines_text(&file), printed.into_bytes());
        } else {
            assert_eq!(tables.next(&file, at), Ok(None));
            assert_eq!((tables.letters, tables.count), (letters, all.len()));
        }
    }
}
