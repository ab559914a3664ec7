//! What is refused is told in words that a person can act on: where it stands,
//! what it is, and by how much it is too much.

mod common;
#[path = "common/within.rs"]
mod within;

use common::Scratch;
use std::fs;
use within::said;

/// A folder with a file of two sequences.
fn folder() -> Scratch {
    let scratch = Scratch::new();
    scratch.file("a.fa", ">a\nACGTACGT\n>b\nACGGT\n");
    scratch
}

/// What is said of a file with these bytes.
fn file_said(name: &str, bytes: &[u8]) -> String {
    let scratch = Scratch::new();
    scratch.file(name, bytes);
    said(&scratch, &["search", "NN", "1", name], 3)
}

#[test]
fn a_byte_that_is_no_letter_is_told_with_its_line_and_column() {
    let long = [b'x'; 5_000];
    let lines = [&b"\n\n>p1 "[..], &long, b"\nACGT\n\nACGT\n"].concat();
    let promoters = [&lines[..], b"\n>p2\nA\n\r\n\r\nACGTACn\n"].concat();
    let first = |said: String| said.lines().next().unwrap_or("").to_string();
    assert_eq!(
        first(file_said("promoters.fa", &promoters)),
        "promoters.fa:12:7: 'n' is no letter (refusal 4)"
    );
    assert_eq!(
        first(file_said("b.fa", b">a\r\nACGT\r\n\r\nAC-T\r\n")),
        "b.fa:4:3: '-' is no letter (refusal 4)"
    );
    assert_eq!(
        first(file_said("b.fa", b">a\nacgt\n")),
        "b.fa:2:1: 'a' is no letter: letters are upper case (refusal 4)"
    );
    for (byte, what) in [
        (&b" "[..], "a space"),
        (b"\t", "a tab"),
        (b"\r", "byte 13"),
        (b"\0", "byte 0"),
        (b"\xc3\xa4", "byte 195"),
    ] {
        let file = [b">a\nAC", byte, b"GT"].concat();
        assert_eq!(
            first(file_said("b.fa", &file)),
            format!("b.fa:2:3: {what} is no letter (refusal 4)")
        );
    }
}

#[test]
fn text_before_the_first_record_is_told_where_it_begins() {
    for (file, place) in [
        (&b"promoters of\n"[..], "1:1"),
        (b"\n\r\n  >a\nACGT\n", "3:1"),
        (b"\n\r", "2:1"),
    ] {
        assert_eq!(
            file_said("b.fa", file),
            format!("b.fa:{place}: text before the first '>' (refusal 19)\n")
        );
    }
}

/// A template, what is wrong with it, and the spaces and carets under it.
type Wrong<'a> = (&'a str, &'a str, &'a str);

/// What is said of a template.
fn shown((template, words, carets): Wrong) -> String {
    format!("tulfasheq: {words}\n  {template}\n  {carets}\n")
}

#[test]
fn a_template_that_cannot_be_read_has_a_caret_where_it_goes_wrong() {
    let scratch = folder();
    let run = "a component is a run of N";
    let gap = "after a run of N comes [l,u], or nothing";
    let comma = "between the two numbers of a gap stands a comma";
    let missing = "a gap's number is missing";
    let zero = "a number has no leading zero";
    for (template, why, carets) in [
        ("", run, "^"),
        ("[0,1]NN", run, "^"),
        ("NN[0,1]", run, "       ^"),
        ("NN[0,1][0,1]N", run, "       ^"),
        ("NN/", gap, "  ^"),
        ("NN[0,1]/", run, "       ^"),
        ("N[0,1]ä", run, "      ^"),
        ("NN[3", comma, "    ^"),
        ("NN[3/4]N", comma, "    ^"),
        ("NN[,4]N", missing, "   ^"),
        ("NN[-1,4]N", missing, "   ^"),
        ("NN[1,]N", missing, "     ^"),
        ("NN[", missing, "   ^"),
        ("NN[01,4]", zero, "   ^^"),
        ("NN[0,004]", zero, "     ^^^"),
        ("NN[0,4N", "a gap ends with ]", "      ^"),
        ("NN[0,4", "a gap ends with ]", "      ^"),
    ] {
        let words = format!("the template cannot be read: {why}");
        assert_eq!(
            said(&scratch, &["search", template, "1", "a.fa"], 2),
            format!("tulfasheq: {words}\n  {template}\n  {carets}\n")
        );
    }
}

#[test]
fn a_template_that_is_refused_has_carets_under_what_is_too_much() {
    let scratch = folder();
    for wrong in [
        (
            "N[0,1]N[0,1]N[0,1]N[0,1]N[0,1]N[0,1]N[2,3]N",
            "8 components, and a template has at most 6: 2 too many (refusal 5)",
            "                               ^^^^^^^^^^^^",
        ),
        (
            "NN[0,1]NNNNNNNNNNNNNN",
            "component 2 has 14 letters, and at most 12 are taken: 2 too many (refusal 6)",
            "       ^^^^^^^^^^^^^^",
        ),
        (
            "NNNNNNNNNNNN[0,1]NNNNNNNNNNNN[0,1]NNNNNNNNN[0,1]NN",
            "35 letters in all components, and a search takes at most 32: 3 too many (refusal 7)",
            "                                          ^^^^^^^^",
        ),
        (
            "NN[7,6]N",
            "the gap before component 2 goes down, from 7 to 6 (refusal 8)",
            "  ^^^^^",
        ),
        (
            "NN[0,1]N[0,1255]NN",
            "the gap before component 3 goes up to 1,255, and 255 is the most: 1,000 too many (refusal 8)",
            "        ^^^^^^^^",
        ),
        (
            "N[0,65536]N",
            "the gap before component 2 goes up to 65,536, and 255 is the most: 65,281 too many (refusal 8)",
            " ^^^^^^^^^",
        ),
        (
            "N[0,99999999999999999999]N",
            "the gap before component 2 goes up to 18,446,744,073,709,551,615 or more, and 255 is the most: far too many (refusal 8)",
            " ^^^^^^^^^^^^^^^^^^^^^^^^",
        ),
    ] {
        let words = ["search", wrong.0, "1", "a.fa"];
        assert_eq!(said(&scratch, &words, 3), shown(wrong));
    }
    for (mixed, allows, above) in [("1,3", "3", "2"), ("1,65536", "65,536", "65,535")] {
        let words = ["search", "NN[0,1]N", "1", "a.fa", "--mixed", mixed];
        let expected = format!("component 2 has 1 letter, and --mixed allows {allows} of them to stand for several bases: {above} too many (refusal 24)");
        let carets = "       ^";
        assert_eq!(
            said(&scratch, &words, 3),
            shown(("NN[0,1]N", &expected, carets))
        );
    }
}

#[test]
fn a_long_template_is_shown_in_part_and_cannot_steer_a_terminal() {
    let scratch = folder();
    let long = "N".repeat(100_000);
    let told = said(&scratch, &["search", &long, "1", "a.fa"], 3);
    assert!(told.contains("component 1 has 100,000 letters"), "{told}");
    assert!(told.len() < 400, "{} bytes", told.len());
    let steering = "N\u{1b}[2J\nN";
    let told = said(&scratch, &["search", steering, "1", "a.fa"], 2);
    assert!(told.ends_with("\n  N?[2J?N\n   ^\n"), "{told:?}");
    let told = said(&scratch, &["search", "N", "1", "\u{1b}[2J"], 4);
    assert_eq!(told, "tulfasheq: \\u{1b}[2J: no such file or directory\n");
}

#[test]
fn allowances_that_cannot_be_read_have_a_caret() {
    let scratch = folder();
    let numbers = "--mixed cannot be read: it takes numbers with commas between them, such as 1,0";
    let zero = "--mixed cannot be read: a number has no leading zero";
    for wrong in [
        ("", numbers, "^"),
        ("1,", numbers, "  ^"),
        ("1,x2", numbers, "  ^^"),
        ("-1", numbers, "^^"),
        ("1,00", zero, "  ^^"),
    ] {
        let words = ["search", "NN[0,1]N", "1", "a.fa", "--mixed", wrong.0];
        assert_eq!(said(&scratch, &words, 2), shown(wrong));
    }
    let words = ["search", "NN[0,1]N", "1", "a.fa", "--mixed", "1,2,3"];
    assert_eq!(
        said(&scratch, &words, 2),
        "tulfasheq: --mixed has 3 numbers, and the template has 2 components: it takes one for each, or one for all\n"
    );
}

#[test]
fn a_quorum_is_told_with_what_is_wrong() {
    let scratch = folder();
    let number = "it is a number of sequences, or a share of them such as 12%";
    let share = "a share is a number and %, such as 12% or 12.5%";
    let digits = "a share has at most three digits, and nine behind its point";
    for (quorum, why, carets) in [
        ("", number, "^"),
        ("1.5.", number, "^^^^"),
        ("-1", number, "^^"),
        ("half", number, "^^^^"),
        ("%", share, "^"),
        ("5.x%", share, "^^^^"),
        ("1000%", digits, "^^^^^"),
    ] {
        assert_eq!(
            said(&scratch, &["search", "NN", quorum, "a.fa"], 2),
            format!("tulfasheq: the quorum cannot be read: {why}\n  {quorum}\n  {carets}\n")
        );
    }
    for (quorum, words) in [
        ("0", "a quorum of 0: it is at least 1"),
        ("0.0%", "a quorum of 0: it is at least 1"),
        ("1002", "a quorum of 1,002 of 2 sequences: 1,000 too many"),
        ("100.1%", "a quorum of 3 of 2 sequences: 1 too many"),
        (
            "99999999999999999999",
            "a quorum of 18,446,744,073,709,551,615 or more of 2 sequences: far too many",
        ),
    ] {
        assert_eq!(
            said(&scratch, &["search", "NN", quorum, "a.fa"], 3),
            format!("tulfasheq: {words} (refusal 9)\n")
        );
    }
}

#[test]
fn nothing_is_written_where_something_is_refused() {
    let scratch = folder();
    scratch.file("bad.fa", ">a\nACGN\n");
    let out = scratch.file("out.tsv", "what was there\n");
    for (words, status) in [
        (["NN[", "1", "a.fa"], 2),
        (["NN", "one", "a.fa"], 2),
        (["NN[3,1]N", "1", "a.fa"], 3),
        (["NN", "3", "a.fa"], 3),
        (["NN", "1", "bad.fa"], 3),
        (["NN", "1", "none.fa"], 4),
    ] {
        let words = [&["search"], &words[..], &["--out", "out.tsv"]].concat();
        said(&scratch, &words, status);
        said(&scratch, &[&words[..], &["--job", "job"]].concat(), status);
        assert_eq!(fs::read(&out).expect("the file"), b"what was there\n");
        assert!(!scratch.path("job").exists(), "{words:?} made a job");
    }
}
