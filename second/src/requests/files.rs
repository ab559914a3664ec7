//! FASTA files: sound ones, and ones with everything that a reader can trip
//! over.

use super::random::Random;

/// A small file in which each kind of line end, of name and of record is.
pub const SMALL: &[u8] =
    b"\n\r\n>p1 a promoter\r\nACG\r\nTA\n\n>p2\n\r\n>\n\r\nGG\n>p4\tx>y\nAC>GT\nA\rC\n> p5\r\n\n>p6\r\nTT\r";

/// A small file with nothing wrong.
pub const SOUND: &[u8] = b">a\nACG\nT\n>b\n\n>c x\r\nGG\r\n>\nA";

/// A line's end.
fn end(random: &mut Random) -> &'static [u8] {
    random.pick(&[&b"\n"[..], b"\n", b"\r\n"])
}

/// A name: of plain bytes, or of those that matter and any others; it may be
/// empty.
fn name(random: &mut Random) -> Vec<u8> {
    let length = random.below(6);
    (0..length)
        .map(|_| match random.below(8) {
            0 => random.pick(b">>\r\0\xff-|"),
            _ => random.pick(b"pqrs12_"),
        })
        .collect()
}

/// The line that begins a record.
fn header(random: &mut Random) -> Vec<u8> {
    let mut line = vec![b'>'];
    line.extend(name(random));
    if random.once_in(2) {
        line.push(random.pick(b" \t"));
        line.extend(name(random));
        line.extend(random.pick(&[&b""[..], b"\t", b" long ", b">x", b"\r"]));
    }
    line
}

/// A file with nothing wrong: up to `most` records of up to `longest` letters
/// a line, empty lines anywhere, and either end of a line.
pub fn sound(random: &mut Random, most: u64, longest: u64) -> Vec<u8> {
    let mut file = Vec::new();
    let empty = |random: &mut Random, file: &mut Vec<u8>| {
        while random.once_in(4) {
            file.extend(end(random));
        }
    };
    empty(random, &mut file);
    for _ in 0..random.below(most + 1) {
        file.extend(header(random));
        file.extend(end(random));
        empty(random, &mut file);
        for _ in 0..random.below(4) {
            let length = random.below(longest + 1);
            file.extend(random.letters(length, 4));
            file.extend(end(random));
            empty(random, &mut file);
        }
    }
    if random.once_in(4) {
        // The file's end ends the last line.
        while file.last() == Some(&10) {
            file.pop();
        }
        if file.last() == Some(&13) && random.once_in(2) {
            file.pop();
        }
    }
    file
}

/// A sound file, with text before its first record, or with some bytes put
/// in, changed or left out.
pub fn damaged(random: &mut Random, most: u64, longest: u64) -> Vec<u8> {
    let mut file = sound(random, most, longest);
    if random.once_in(4) {
        let text = random.pick(&[
            &b"A"[..],
            b"ACGT\n",
            b"\r",
            b" ",
            b"; no\r\n",
            b"\0\n",
            b"\n\t\n",
        ]);
        file.splice(0..0, text.iter().copied());
        return file;
    }
    for _ in 0..random.within(1, 3) {
        let byte = match random.below(4) {
            0 => random.any() as u8,
            _ => random.pick(b"\n\n\r\r>> \tACGTacgtNn\0\xff"),
        };
        let at = random.below(file.len() as u64 + 1) as usize;
        match random.below(3) {
            0 if at < file.len() => file[at] = byte,
            1 if at < file.len() => drop(file.remove(at)),
            _ => file.insert(at, byte),
        }
    }
    file
}

/// A file of a few bytes, most of which matter.
pub fn jumble(random: &mut Random) -> Vec<u8> {
    let length = random.below(14);
    (0..length)
        .map(|_| random.pick(b">>>\n\n\n\r\rACGTx \t"))
        .collect()
}

/// A file of any of these kinds.
pub fn any(random: &mut Random) -> Vec<u8> {
    let longest = random.pick(&[3, 12, 60]);
    let most = random.pick(&[2, 5, 12]);
    match random.below(8) {
        0..=2 => sound(random, most, longest),
        3..=5 => damaged(random, most, longest),
        _ => jumble(random),
    }
}

/// For each byte, a file with one line of letters and the byte among them.
pub fn every_byte(before: &[u8], after: &[u8]) -> Vec<Vec<u8>> {
    (0..=u8::MAX)
        .map(|byte| [b">x\n", before, &[byte], after, b"\n"].concat())
        .collect()
}

/// Every beginning of a file, itself the last.
pub fn beginnings(file: &[u8]) -> Vec<Vec<u8>> {
    (0..=file.len()).map(|n| file[..n].to_vec()).collect()
}
