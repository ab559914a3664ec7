//! The linked library's FASTA reader: what a call leaves alone, and whole
//! files beside the second program: every record, one after another, and then
//! a search over them.

use second::requests::files;
use second::requests::random::Random;
use second::Refusal;
use tulfasheq::{Reader, Stop, Template};

mod linked;

use linked::{as_second, refused};

/// Two records, ACGTA and TT.
const FILE: &[u8] = b"\n>e1 first\nACG\nTA\n>e2\r\nTT";

#[test]
fn refused_records_leave_the_reader_and_its_tables() {
    let (mut letters, mut lengths) = ([7; 5], [7; 2]);
    let mut refuses = |file: &[u8], at, (used, count), room: (usize, usize), refusal| {
        let mut reader = Reader::from(file, at);
        let (mut u, mut c) = (used, count);
        let (l, n) = (&mut letters[..room.0], &mut lengths[..room.1]);
        assert_eq!(reader.next(l, &mut u, n, &mut c), Err(refusal));
        assert_eq!((reader.at(), u, c), (at, used, count));
    };
    refuses(b"ACG\n>e1\n", 0, (0, 0), (5, 2), refused(19, 0));
    refuses(FILE, 2, (0, 0), (0, 0), refused(19, 0));
    refuses(FILE, 0, (0, 0), (4, 2), refused(20, 0));
    refuses(FILE, 0, (1, 0), (5, 2), refused(20, 0));
    refuses(FILE, 0, (u64::MAX, 0), (5, 2), refused(20, 0));
    refuses(FILE, 0, (0, 2), (5, 2), refused(20, 0));
    refuses(FILE, 0, (0, u64::MAX), (5, 2), refused(20, 0));
    refuses(b">e1\nACN\n", 0, (0, 0), (2, 2), refused(20, 0));
    refuses(b">e1\nAC\nN", 0, (0, 0), (3, 2), refused(4, 7));
    refuses(b"\n>e1\nac", 1, (0, 0), (5, 2), refused(4, 5));
    assert_eq!((letters, lengths), ([7; 5], [7; 2]));
}

#[test]
fn the_end_of_a_file_is_told_whatever_the_tables_are() {
    for (file, at) in [
        (FILE, 25),
        (FILE, 26),
        (FILE, u64::MAX),
        (b"", 0),
        (b"\r\n", 0),
    ] {
        let mut reader = Reader::from(file, at);
        let (mut used, mut count) = (u64::MAX, 9);
        let found = reader.next(&mut [], &mut used, &mut [], &mut count);
        assert_eq!(found, Ok(None));
        assert_eq!((reader.at(), used, count), (at, u64::MAX, 9));
    }
}

/// What a file holds: the names, the letters of all records, and the lengths.
#[derive(Debug, Default, PartialEq)]
struct Held {
    names: Vec<Vec<u8>>,
    letters: Vec<u8>,
    lengths: Vec<u32>,
}

/// What the library reads, into tables of this room; or what it refuses.
fn read(file: &[u8], letters: usize, lengths: usize) -> Result<Held, Refusal> {
    let mut held = Held {
        letters: vec![b'-'; letters],
        lengths: vec![u32::MAX; lengths],
        ..Held::default()
    };
    let mut reader = Reader::new(file);
    let (mut used, mut count) = (0, 0);
    while let Some(name) = reader
        .next(&mut held.letters, &mut used, &mut held.lengths, &mut count)
        .map_err(as_second)?
    {
        held.names.push(name.to_vec());
    }
    held.letters.truncate(used as usize);
    held.lengths.truncate(count as usize);
    Ok(held)
}

/// What the second program says that a file holds, letters or not.
fn listed(file: &[u8]) -> Result<Held, Refusal> {
    let mut held = Held::default();
    for record in second::records(file)? {
        held.names.push(file[record.name.clone()].to_vec());
        held.lengths.push(record.letters.len() as u32);
        held.letters.extend(record.joined(file));
    }
    Ok(held)
}

/// A search over what was read, and one over the same sequences in the second
/// program: begun, and run to its end.
fn search(held: &Held, random: &mut Random) {
    let (letters, lengths) = (&held.letters[..], &held.lengths[..]);
    let value = random.template(3, 4);
    let shape: Vec<u16> = value
        .slots
        .iter()
        .flat_map(|slot| [slot.length, slot.low, slot.high])
        .collect();
    let template = Template::exact(value.count, &shape);
    let quorum = random.within(1, lengths.len().max(1) as u64);
    let mut saved = [7; 128];
    let begun = tulfasheq::begin(letters, lengths, template, quorum, &mut saved).map_err(as_second);
    let template = second::requests::answer::search(&value).template;
    let there = match second::begin(letters, lengths, &template, quorum) {
        Ok(there) => there,
        Err(refusal) => {
            assert_eq!(begun, Err(refusal));
            return;
        }
    };
    let mut beside = [7; 128];
    let size = second::save(letters, lengths, &there, &mut beside);
    assert_eq!(begun, size);
    assert_eq!(saved, beside);

    let (mut motifs, mut supports, mut weights) = (vec![0; 64], vec![0; 64], vec![0; 64]);
    let (m, s, w) = (&mut motifs, &mut supports, &mut weights);
    let saved = &mut saved[..size.unwrap()];
    let leg = tulfasheq::leg(letters, lengths, saved, u64::MAX, m, s, w).expect("a search");
    assert_eq!(leg.stop, Stop::Ended);
    let (mut motifs_there, mut supports_there, mut weights_there) =
        (vec![0; 64], vec![0; 64], vec![0; 64]);
    let (m, s, w) = (&mut motifs_there, &mut supports_there, &mut weights_there);
    let leg_there = second::leg(letters, lengths, &there, u64::MAX, m, s, w);
    assert_eq!((leg.steps, leg.rows), (leg_there.steps, leg_there.rows));
    assert_eq!(motifs, motifs_there);
    assert_eq!(supports, supports_there);
    assert_eq!(weights, weights_there);
}

/// Reads a file with just the room that it wants, and with one byte or one row
/// less; then searches what was read.
fn compare(file: &[u8], random: &mut Random) {
    let held = match listed(file) {
        Ok(held) => held,
        Err(refusal) => {
            assert_eq!(read(file, 0, 0), Err(refusal));
            return;
        }
    };
    let (letters, lengths) = (held.letters.len(), held.lengths.len());
    let printed = second::lines_text(file);
    if printed.starts_with(b"refused") {
        let refusal = read(file, letters, lengths).unwrap_err();
        let told = format!("refused {} {}\n", refusal.number, refusal.place);
        assert_eq!(told.as_bytes(), printed);
        return;
    }
    let found = read(file, letters, lengths).expect("room for every record");
    assert_eq!(found, held);
    let no_room = Err(Refusal::plain(Refusal::NO_ROOM));
    if letters > 0 {
        assert_eq!(read(file, letters - 1, lengths), no_room);
    }
    if lengths > 0 {
        assert_eq!(read(file, letters, lengths - 1), no_room);
    }
    search(&found, random);
}

#[test]
fn every_record_is_read_and_searched() {
    for seed in 1_000..9_000 {
        let run = std::panic::catch_unwind(|| {
            let random = &mut Random::new(seed);
            compare(&files::any(random), random);
        });
        if let Err(cause) = run {
            println!("seed {seed}");
            std::panic::resume_unwind(cause);
        }
    }
}

#[test]
fn every_beginning_of_a_small_file() {
    let random = &mut Random::new(110);
    for file in files::beginnings(files::SMALL) {
        compare(&file, random);
    }
}

/// As many sequences and letters as a search takes, and one more of each,
/// which the search refuses and the reader does not.
#[test]
fn files_at_the_limits_of_a_search() {
    let random = &mut Random::new(111);
    for records in [1_024, 1_025] {
        compare(&b">\r\nAC\r\n\r\nGT\r\n".repeat(records), random);
        compare(&b">\n".repeat(records), random);
    }
    for letters in [65_536, 65_537] {
        let mut file = b">long\n".to_vec();
        for line in random.letters(letters, 4).chunks(70) {
            file.extend(line);
            file.push(10);
        }
        compare(&file, random);
    }
}
