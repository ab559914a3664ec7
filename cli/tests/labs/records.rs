//! Files that are read without a refusal, and look like an answer that they are
//! none of.

use crate::common::Scratch;
use crate::{pasted, refused, searched};

#[test]
fn lines_that_end_in_byte_13_alone_are_refused_with_how_to_convert() {
    let hint = "tr '\\r' '\\n' <'my mac.fa' >NEW.fa makes it one that can be read.\n";
    for (file, place) in [
        (&b">a\rACGT\r>b\rAC\r"[..], "1:3"),
        (b">a b\rACGT", "1:5"),
        // Files that were joined.
        (b">a\nAC\n>b\nGT\n>c\rACGT\r>d\rAC\r", "5:3"),
        (b">a\rACGT\r>b\rAC\r>c\nGT\n", "1:3"),
        (b">a\r\nAC\r\n>b x\rACGT\r\n", "3:5"),
        (b">a\r\rAC\n", "1:3"),
    ] {
        let why = "byte 13 within a name: lines that end in byte 13 alone are not read as lines";
        let said = refused("my mac.fa", file, 3);
        assert_eq!(said, format!("my mac.fa:{place}: {why}\n{hint}"));
        let scratch = Scratch::new();
        scratch.file("my mac.fa", file);
        pasted(&scratch, hint.split(" makes").next().expect("a command"));
        let (table, _) = searched(&scratch, &["search", "N", "1", "NEW.fa"]);
        assert!(table.contains("\nA\t"), "{table}");
    }
}

#[test]
fn lines_of_byte_13_before_the_first_record_are_told_too() {
    assert_eq!(
        refused("a.fa", b"\r>a\rACGT\r", 3),
        "a.fa:1:1: text before the first '>' (refusal 19)\ntr '\\r' '\\n' <a.fa >NEW.fa makes it one that can be read.\n"
    );
}

#[test]
fn byte_13_at_the_end_of_a_name_is_taken() {
    for file in [
        &b">a\r\nACGT\r\n"[..],
        b">a\r\r\nACGT\n",
        b">a\nA\n>b\r",
        b">a\nA\n>b\r\r",
    ] {
        let scratch = Scratch::new();
        scratch.file("a.fa", file);
        let (table, _) = searched(&scratch, &["search", "N", "1", "a.fa"]);
        assert!(table.contains("\nA\t1\t1\n"), "{table}");
    }
}

#[test]
fn empty_sequences_are_searched_with_a_warning() {
    for (file, said) in [
        (">a\n", "its one sequence is empty: it holds no motif"),
        (
            ">a\n\n>b\r\n>c\n\n",
            "all of its 3 sequences are empty: they hold no motif",
        ),
        (">a\nAC\n>b\n", "1 of its 2 sequences is empty"),
        (">a\n>b\nAC\n>c\n", "2 of its 3 sequences are empty"),
    ] {
        let scratch = Scratch::new();
        scratch.file("a.fa", file);
        let expected = format!("tulfasheq: a.fa: {said}\n");
        for words in [
            &["search", "N", "1", "a.fa"][..],
            &["places", "N", "A", "a.fa"],
        ] {
            let (_, said) = searched(&scratch, words);
            assert_eq!(said, expected);
        }
        let (table, _) = searched(&scratch, &["search", "N", "1", "a.fa"]);
        assert_eq!(table.contains("\nA\t1\t1\n"), file.contains("AC"));
    }
}

#[test]
fn records_with_the_same_name_are_warned_of_once() {
    let many = ">x\nA\n".repeat(12);
    let long = format!(">{0}\nA\n>{0}\nC\n", "y".repeat(70));
    let shown = format!("{}…", "y".repeat(60));
    for (file, said) in [
        (
            ">b\nA\n>a 1\nC\n>b\nG\n>a 2\nT\n>c\nT\n>a\nA\n",
            "2 names stand for several records each; the first is b, of records 1, 3",
        ),
        (
            ">a 1\nA\n>b\nC\n>a 2\nA\n",
            "a name stands for several records: a, of records 1, 3",
        ),
        (
            ">\nA\n> x\nC\n",
            "a name stands for several records: the empty one, of records 1, 2",
        ),
        (
            ">\u{1b}[2J\nA\n>\u{1b}[2J\nC\n",
            "a name stands for several records: \\u{1b}[2J, of records 1, 2",
        ),
        (
            &many,
            "a name stands for several records: x, of records 1, 2, 3, 4, 5, 6, 7, 8, 9, 10 and 2 more",
        ),
        (
            &long,
            &format!("a name stands for several records: {shown}, of records 1, 2"),
        ),
    ] {
        let scratch = Scratch::new();
        scratch.file("a.fa", file);
        let (table, warned) = searched(&scratch, &["search", "N", "1", "a.fa", "--job", "job"]);
        assert_eq!(warned, format!("tulfasheq: a.fa: {said}\n"));
        assert!(table.contains("\nA\t"), "{table}");
        // A job was told of when it began.
        let (_, warned) = searched(&scratch, &["places", "--job", "job"]);
        assert_eq!(warned, "");
    }
    let scratch = Scratch::new();
    scratch.file("a.fa", ">a\nA\n>A\nA\n>a1 a\nC\n");
    let (_, warned) = searched(&scratch, &["search", "N", "1", "a.fa"]);
    assert_eq!(warned, "");
}
