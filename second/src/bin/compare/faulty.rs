//! Texts for the printing program that are malformed, cut or damaged, and
//! well-formed ones that are beyond a limit.

use crate::texts::{e, sound, text};
use second::requests::random::Random;

/// Malformed, and well formed but beyond a limit, in each of the first lines.
pub fn faulty_lines() -> Vec<Vec<u8>> {
    let templates = [
        "",
        "n",
        "NA",
        " N",
        "N ",
        "N\r",
        "N\t",
        "N[0,1]",
        "[0,1]N",
        "N[]N",
        "N[0]N",
        "N[0,]N",
        "N[,1]N",
        "N[,]N",
        "N[0,1N",
        "N0,1]N",
        "N[00,1]N",
        "N[0,01]N",
        "N[0,1000]N",
        "N[1000,1]N",
        "N[-1,1]N",
        "N[0, 1]N",
        "N[0,1,2]N",
        "N[0,1]]N",
        "N[[0,1]N",
        "N[0,1][0,1]N",
        "N[0,1]n",
        "N(0,1)N",
        "N[a,b]N",
        "N,N",
        "N]N",
        "NN[0,1]N[",
        "N\0N",
        // Well formed.
        "N[0,255]N",
        "N[0,256]N",
        "N[255,255]N",
        "N[256,256]N",
        "N[3,1]N",
        "N[0,999]N",
        "N[999,0]N",
        "N[0,0]N",
        "NNNNNNNNNNNN",
        "NNNNNNNNNNNNN",
        "N[0,1]NNNNNNNNNNNNN",
        "N[0,0]N[0,0]N[0,0]N[0,0]N[0,0]N",
        "N[0,0]N[0,0]N[0,0]N[0,0]N[0,0]N[0,0]N",
        "NNNNNNNNNNNN[0,1]NNNNNNNNNNNN[0,1]NNNNNNNN",
        "NNNNNNNNNNNN[0,1]NNNNNNNNNNNN[0,1]NNNNNNNNN",
    ];
    let quorums = [
        "", " ", "0", "1", "2", "3", "4", "00", "01", "02", "+2", "-1", " 2", "2 ", "2\r", "2.0",
        "two", "2x", "99999", "100000", "12345", "1e3", "0x2", "\0",
    ];
    let mut texts: Vec<Vec<u8>> = templates
        .iter()
        .map(|template| text(template, "2", &e()))
        .collect();
    texts.extend(quorums.iter().map(|quorum| text("N[0,1]N", quorum, &e())));
    // Both at once: the lowest line is told.
    texts.push(text("M", "x", &e()));
    texts.push(text("N[3,1]N", "x", &e()));
    texts.push(text(&"N".repeat(300), "2", &e()));
    texts.push(text(&vec!["N"; 300].join("[0,1]"), "2", &e()));
    texts.push(text(&["N"; 7].join("[0,1]"), "9", &[]));
    texts
}

/// Lines that are missing, have no end, or end otherwise.
pub fn faulty_ends() -> Vec<Vec<u8>> {
    let whole = text("N[0,1]N", "2", &e());
    // Cut at every byte.
    let mut texts: Vec<Vec<u8>> = (0..=whole.len()).map(|n| whole[..n].to_vec()).collect();
    let crs = String::from_utf8(whole.clone())
        .expect("text")
        .replace('\n', "\r\n");
    texts.push(crs.into_bytes());
    for sequences in [
        "ACGTA\r\nCAGGT\r\n",
        "acgta\ncaggt\n",
        "ACGTa\nCAGGT\n",
        "ACG TA\nCAGGT\n",
        "ACGTA \nCAGGT\n",
        "ACGNA\nCAGGT\n",
        "ACGTA\n\nCAGGT\n",
        "\n\n\n",
        "\n",
        "",
        ">one\nACGTA\n",
        "ACGTA\nCAGGT\n\u{e9}\n",
        "ACGTA\nCAGGT\nX",
        "A\0C\n",
    ] {
        texts.push(format!("N[0,1]N\n1\n{sequences}").into_bytes());
    }
    texts.push(b"\n".to_vec());
    texts.push(b"\n\n\n\n".to_vec());
    texts
}

/// A sound text with a few bytes changed, put in or left out.
pub fn damaged(random: &mut Random) -> Vec<u8> {
    let mut text = sound(random);
    for _ in 0..random.within(1, 3) {
        let byte = match random.below(4) {
            0 => random.any() as u8,
            _ => random.pick(b"\n\n\r NN[],0123456789ACGTacgt"),
        };
        // Mostly in the first two lines.
        let most = if random.once_in(3) {
            text.len()
        } else {
            text.len().min(16)
        };
        let at = random.below(most as u64 + 1) as usize;
        match random.below(3) {
            0 => text.insert(at, byte),
            1 if at < text.len() => text[at] = byte,
            _ if at < text.len() => drop(text.remove(at)),
            _ => text.push(byte),
        }
    }
    text
}

/// A well-formed text that breaks one or two limits.
pub fn beyond(random: &mut Random) -> Vec<u8> {
    let sequences = random.within(1, 5);
    let mut sequences: Vec<Vec<u8>> = (0..sequences)
        .map(|_| {
            let length = random.within(1, 12);
            random.letters(length, 4)
        })
        .collect();
    let mut runs = vec![
        random.within(1, 4),
        random.within(1, 4),
        random.within(1, 4),
    ];
    let mut range = (0, random.below(256));
    let mut quorum = random.within(1, sequences.len() as u64);
    for _ in 0..random.within(1, 2) {
        match random.below(6) {
            0 => runs = vec![1; random.within(7, 20) as usize],
            1 => runs[1] = random.within(13, 40),
            2 => runs = vec![12, 12, random.within(9, 12)],
            3 => range = random.pick(&[(0, 256), (256, 300), (9, 8), (255, 0), (0, 999)]),
            4 => quorum = random.pick(&[0, sequences.len() as u64 + 1, 1_025, 99_999]),
            _ => sequences[0][0] = random.pick(b"acgtN-. \r"),
        }
    }
    let runs: Vec<String> = runs.iter().map(|run| "N".repeat(*run as usize)).collect();
    text(
        &runs.join(&format!("[{},{}]", range.0, range.1)),
        &quorum.to_string(),
        &sequences,
    )
}
