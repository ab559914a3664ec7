//! Calls of the FASTA reader: files read to their end, each call from where
//! the one before it stood, into tables of about the room that they want;
//! calls from any cursor, with any number of letters and lengths said to be
//! used; and every byte among the letters of a record.

use super::answer::{Answer, DONE};
use super::files;
use super::random::Random;
use super::request::{Kind, Request, Set, Value};
use std::rc::Rc;

fn request(file: &Rc<Set>, letters: Vec<u8>, lengths: Vec<u32>) -> Request {
    Request {
        saved: letters,
        rows: lengths,
        ..Request::new(Kind::Fasta, file, Value::default())
    }
}

fn lent(file: Vec<u8>) -> Rc<Set> {
    Rc::new(Set {
        letters: file,
        lengths: Vec::new(),
    })
}

/// What the records of a file want of a buffer and of a table; of one that is
/// refused with 19, something.
fn wanted(file: &[u8]) -> (usize, usize) {
    match crate::records(file) {
        Ok(records) => (
            records.iter().map(|record| record.letters.len()).sum(),
            records.len(),
        ),
        Err(_) => (file.len(), 2),
    }
}

/// As much as is wanted, one less, one more, much more, or less.
fn room(random: &mut Random, wanted: usize) -> usize {
    match random.below(8) {
        0 => wanted.saturating_sub(1),
        1 => random.below(wanted as u64 + 1) as usize,
        2 => wanted + 1,
        3 => wanted + random.below(30) as usize,
        _ => wanted,
    }
}

/// A call, and the next from where it stands, until one hands out no record;
/// and that one once more.
fn read(mut request: Request, requests: &mut Vec<Request>) {
    loop {
        let answer = Answer::expected(&request);
        requests.push(request.clone());
        if answer.outcome() == DONE {
            request.used += answer.count();
            request.count += 1;
        }
        let stays = answer.cursor() == request.at;
        request = Request {
            at: answer.cursor(),
            saved: answer.saved,
            rows: answer.rows,
            ..request
        };
        if stays {
            requests.push(request);
            return;
        }
    }
}

/// A small file read into tables of every room, up to what it wants and more.
fn every_room(random: &mut Random, requests: &mut Vec<Request>) {
    let file = lent(files::SOUND.to_vec());
    let (letters, lengths) = wanted(files::SOUND);
    for n in 0..=letters + 1 {
        for m in 0..=lengths + 1 {
            read(request(&file, random.bytes(n), random.narrow(m)), requests);
        }
    }
}

/// Files read to their end, or as far as there is room.
pub fn reads(random: &mut Random) -> Vec<Request> {
    let mut requests = Vec::new();
    every_room(random, &mut requests);
    let mut files: Vec<Vec<u8>> = files::beginnings(files::SMALL);
    files.extend((0..3_000).map(|_| files::any(random)));
    for file in files {
        let (letters, lengths) = wanted(&file);
        let (letters, lengths) = (room(random, letters), room(random, lengths));
        let (letters, lengths) = (random.bytes(letters), random.narrow(lengths));
        read(request(&lent(file), letters, lengths), &mut requests);
    }
    requests
}

/// Every byte in the middle of a line, as its first and as its last one, and
/// in a line so long that its bytes can be looked at many at a time; read to
/// the end, into tables of just the room that is wanted.
pub fn every_byte(random: &mut Random) -> Vec<Request> {
    let long = b"ACGTA".repeat(9);
    let lines: [(&[u8], &[u8]); 4] = [
        (b"AC", b"GT"),
        (b"", b"ACGT"),
        (b"ACGT", b""),
        (&long, &long),
    ];
    let mut requests = Vec::new();
    for (before, after) in lines {
        for file in files::every_byte(before, after) {
            let (letters, lengths) = wanted(&file);
            let (letters, lengths) = (random.bytes(letters), random.narrow(lengths));
            read(request(&lent(file), letters, lengths), &mut requests);
        }
    }
    requests
}

/// A number about a limit, or anything.
fn about(random: &mut Random, limit: usize) -> u64 {
    let limit = limit as u64;
    match random.below(6) {
        0 => random.edge(),
        1 => limit + 1,
        2 => limit,
        3 => limit.saturating_sub(1),
        _ => random.below(limit + 1),
    }
}

/// Every beginning of a small file from every cursor; and files from a cursor
/// in them or past them, over tables that are used up to any row, and said to
/// be used past their end.
pub fn calls(random: &mut Random) -> Vec<Request> {
    let mut requests = Vec::new();
    for file in files::beginnings(files::SMALL) {
        let file = lent(file);
        for at in 0..=file.letters.len() as u64 + 1 {
            let mut request = request(&file, vec![b'-'; 8], vec![7; 2]);
            request.at = at;
            requests.push(request);
        }
    }
    for _ in 0..9_000 {
        let file = lent(files::any(random));
        let (letters, lengths) = (random.below(30) as usize, random.below(4) as usize);
        let mut request = request(&file, random.bytes(letters), random.narrow(lengths));
        request.at = match random.below(3) {
            0 => 0,
            // Where a line begins with >, as well as may be.
            1 => random_header(random, &file.letters),
            _ => about(random, file.letters.len()),
        };
        request.used = if random.once_in(2) {
            0
        } else {
            about(random, letters)
        };
        request.count = if random.once_in(2) {
            0
        } else {
            about(random, lengths)
        };
        requests.push(request);
    }
    requests
}

/// The offset of a > of a file, 0 if it has none.
fn random_header(random: &mut Random, file: &[u8]) -> u64 {
    let offsets: Vec<u64> = (0..)
        .zip(file)
        .filter(|(_, byte)| **byte == b'>')
        .map(|(at, _)| at)
        .collect();
    if offsets.is_empty() {
        0
    } else {
        random.pick(&offsets)
    }
}
