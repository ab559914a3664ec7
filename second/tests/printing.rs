//! The printing program.

mod common;

use common::*;
use second::printout;
use std::io::Write;
use std::process::{Command, Stdio};

fn printed(input: &str) -> String {
    String::from_utf8(printout(input.as_bytes())).unwrap()
}

/// What is printed for this template text, with a quorum and a set that are
/// right.
fn for_template(text: &str) -> String {
    printed(&format!("{text}\n1\nAC\n"))
}

#[test]
fn lines_that_are_missing_or_have_no_end() {
    for (input, expected) in [
        ("", "refused 18 1\n"),
        ("N", "refused 18 1\n"),
        ("\n", "refused 18 1\n"),
        ("N\n", "refused 18 2\n"),
        ("N\n1", "refused 18 2\n"),
        ("N\n\n", "refused 18 2\n"),
        ("N\n1\n", "refused 1 0\n"),
        ("N\n1\nA", "refused 18 3\n"),
        ("N\n1\nA\nC\nG", "refused 18 5\n"),
        ("N\n1\n\n", "end 4 0\n"),
        ("N\n1\nA\n", "A 1 1\nend 4 1\n"),
    ] {
        assert_eq!(printed(input), expected, "{input:?}");
    }
}

#[test]
fn the_lowest_line_is_told_and_before_all_others() {
    for (input, expected) in [
        ("X", "refused 18 1\n"),
        ("X\n01\nA", "refused 18 1\n"),
        ("N\n01\nA", "refused 18 2\n"),
        ("X\n1\n", "refused 18 1\n"),
        ("N\n1\nX\nA", "refused 18 4\n"),
        ("NNNNNNNNNNNNN\n9\nX\nA", "refused 18 4\n"),
        ("N\nX\nX\n", "refused 18 2\n"),
        ("NNNNNNNNNNNNN\n9\nX\n", "refused 4 0\n"),
        ("NNNNNNNNNNNNN\n9\nA\n", "refused 6 1\n"),
        ("N\n9\nA\n", "refused 9 0\n"),
    ] {
        assert_eq!(printed(input), expected, "{input:?}");
    }
}

#[test]
fn malformed_template_texts() {
    for text in [
        "",
        "n",
        "NA",
        " N",
        "N ",
        "N\r",
        "N[0,1]",
        "[0,1]N",
        "N[]N",
        "N[0]N",
        "N[0,]N",
        "N[,1]N",
        "N[,]N",
        "N[0,1N",
        "N0,1]N",
        "N[00,1]N",
        "N[0,01]N",
        "N[0,00]N",
        "N[000,1]N",
        "N[0,1000]N",
        "N[1000,1000]N",
        "N[0,1][0,1]N",
        "N[0, 1]N",
        "N[-1,1]N",
        "N[+1,2]N",
        "N[0,1]]N",
        "N[[0,1]N",
        "N[0,1,2]N",
        "N(0,1)N",
        "N[0;1]N",
        "N[a,b]N",
        "N[0,1]M",
    ] {
        assert_eq!(for_template(text), "refused 18 1\n", "{text:?}");
    }
}

#[test]
fn template_texts_that_parse_and_are_refused() {
    let parts = |count: usize| vec!["N"; count].join("[0,1]");
    let run = |length: usize| "N".repeat(length);
    for (text, expected) in [
        (run(13), "refused 6 1\n"),
        (run(255), "refused 6 1\n"),
        (run(256), "refused 6 1\n"),
        (run(257), "refused 6 1\n"),
        (run(300), "refused 6 1\n"),
        (format!("N[0,0]{}", run(268)), "refused 6 2\n"),
        (parts(7), "refused 5 0\n"),
        (parts(1_000), "refused 5 0\n"),
        (format!("{}[9,1]{}", run(300), parts(6)), "refused 5 0\n"),
        (
            format!("{}[0,0]{}[0,0]{}", run(12), run(12), run(9)),
            "refused 7 0\n",
        ),
        (
            format!("{}[9,0]{}[0,0]{}", run(12), run(12), run(9)),
            "refused 7 0\n",
        ),
        ("N[3,1]N".to_string(), "refused 8 2\n"),
        ("N[0,999]N".to_string(), "refused 8 2\n"),
        ("N[0,256]N".to_string(), "refused 8 2\n"),
        ("N[0,0]N[256,256]N".to_string(), "refused 8 3\n"),
        ("N[999,999]N".to_string(), "refused 8 2\n"),
    ] {
        assert_eq!(for_template(&text), expected, "{text:?}");
    }
    assert_eq!(for_template("N[0,255]N"), "A[0,255]C 1 1\nend 12 1\n");
    assert_eq!(for_template("N[0,0]N"), "A[0,0]C 1 1\nend 12 1\n");
    assert_eq!(for_template("NN"), "AC 1 1\nend 12 1\n");
}

#[test]
fn quorums() {
    let for_quorum = |text: &str| printed(&format!("N\n{text}\nA\nA\n"));
    for text in [
        "", "00", "01", "002", "100000", "-1", "+1", " 1", "1 ", "1\r", "a", "1a", "0x1",
    ] {
        assert_eq!(for_quorum(text), "refused 18 2\n", "{text:?}");
    }
    for text in ["0", "3", "65535", "65536", "65537", "65538", "99999"] {
        assert_eq!(for_quorum(text), "refused 9 0\n", "{text:?}");
    }
    assert_eq!(for_quorum("2"), "A 2 2\nend 4 1\n");
}

#[test]
fn bytes_that_are_no_letters() {
    assert_eq!(printed("N\n1\nAC\r\nGT\r\n"), "refused 4 2\n");
    assert_eq!(printed("N\n1\nAC\n\nGTx\nN\n"), "refused 4 4\n");
    assert_eq!(printed("N\n1\nacgt\n"), "refused 4 0\n");
    assert_eq!(printout(b"N\n1\nA\0\n"), b"refused 4 1\n");
    assert_eq!(printout(b"N\n1\n\xFF\xFE\n"), b"refused 4 0\n");
    assert_eq!(printout(b"\xEF\xBB\xBFN\n1\nA\n"), b"refused 18 1\n");
}

#[test]
fn input_of_60000_bytes_and_over() {
    let full = format!("N\n1\n{}\n", "A".repeat(59_995));
    assert_eq!(full.len(), 60_000);
    assert_eq!(printed(&full), "A 1 59995\nend 4 1\n");
    let over = format!("N\n1\n{}\n", "A".repeat(59_996));
    assert_eq!(printed(&over), "refused 18 0\n");
    assert_eq!(printed(&"X".repeat(60_000)), "refused 18 1\n");
    assert_eq!(printed(&"X".repeat(60_001)), "refused 18 0\n");
    assert_eq!(printed(&"N".repeat(70_000)), "refused 18 0\n");
}

#[test]
fn numbers_of_sequences() {
    let lines = |count: usize| format!("N\n{count}\n{}", "G\n".repeat(count));
    assert_eq!(printed(&lines(1_024)), "G 1024 1024\nend 4 1\n");
    assert_eq!(printed(&lines(1_025)), "refused 1 0\n");
    assert_eq!(
        printed(&format!("N\n0\n{}", "x\n".repeat(20_000))),
        "refused 1 0\n"
    );
}

#[test]
fn a_long_list_is_printed_whole() {
    let mut random = Random::new(61);
    let letters: String = (0..3_000)
        .map(|_| b"ACGT"[random.below(4) as usize] as char)
        .collect();
    let lent = Lent::new(&[&letters]);
    let six = template(&[(2, 0, 0), (2, 0, 1), (2, 3, 3)]);
    let (steps, rows) = whole(&lent, &six, 1);
    assert!(rows.len() > 2_000);
    let mut expected = String::new();
    for (motif, support, weight) in &rows {
        let motif = letters_of(6, *motif);
        let (first, second, third) = (&motif[..2], &motif[2..4], &motif[4..]);
        expected += &format!("{first}[0,1]{second}[3,3]{third} {support} {weight}\n");
    }
    expected += &format!("end {steps} {}\n", rows.len());
    let input = format!("NN[0,1]NN[3,3]NN\n1\n{letters}\n");
    assert_eq!(printed(&input), expected);
}

#[test]
fn a_long_weight_is_printed_whole() {
    let template = ["N"; 6].join("[0,255]");
    let input = format!("{template}\n1\n{}\n", "A".repeat(59_955));
    assert_eq!(input.len(), 60_000);
    // 2^39 times twice the letters less 1,285 (tests/weights.rs).
    let motif = ["A"; 6].join("[0,255]");
    let expected = format!("{motif} 1 65214783422464000\nend 24 1\n");
    assert_eq!(printed(&input), expected);
}

#[test]
fn random_text_is_printed_or_refused() {
    let mut random = Random::new(62);
    for _ in 0..3_000 {
        let length = random.below(40);
        let input: Vec<u8> = (0..length)
            .map(|_| b"NN[],0129\n\nACGT\r"[random.below(16) as usize])
            .collect();
        let printed = String::from_utf8(printout(&input)).unwrap();
        let last = printed.split_terminator('\n').next_back().unwrap();
        assert!(printed.ends_with('\n'));
        let only_refused = last.starts_with("refused ") && last.len() + 1 == printed.len();
        assert!(last.starts_with("end ") || only_refused);
    }
}

#[test]
fn the_program_prints_the_printout() {
    for input in [
        &b"N[0,1]N\n2\nACGTA\nCAGGT\nAT\n"[..],
        b"",
        b"N\n1\nA",
        b"N\n1\nAx\n",
    ] {
        let mut program = Command::new(env!("CARGO_BIN_EXE_second"))
            .stdin(Stdio::piped())
            .stdout(Stdio::piped())
            .spawn()
            .unwrap();
        program.stdin.take().unwrap().write_all(input).unwrap();
        let output = program.wait_with_output().unwrap();
        assert!(output.status.success());
        assert_eq!(output.stdout, printout(input));
    }
}
