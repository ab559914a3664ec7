//! Letters that labs have and no search takes, and `--upper`.

use crate::common::{fasta, Random, Scratch};
use crate::{pasted, refused, searched};
use std::fs;
use std::os::unix::fs::symlink;

#[test]
fn upper_takes_a_soft_masked_file_as_the_same_in_upper_case() {
    let scratch = Scratch::new();
    let mut random = Random::new(41);
    let plain = fasta(&(0..9).map(|i| random.letters(40 + i)).collect::<Vec<_>>());
    let mut masked = plain.clone();
    let mut count = 0;
    let mut header = false;
    for byte in &mut masked {
        header = *byte == b'>' || header && *byte != b'\n';
        if !header && b"ACGT".contains(byte) && random.below(3) == 0 {
            byte.make_ascii_lowercase();
            count += 1;
        }
    }
    assert!(count > 50);
    scratch.file("plain.fa", &plain);
    scratch.file("masked.fa", &masked);
    let told =
        format!("tulfasheq: masked.fa: {count} lower-case letters are taken as upper-case ones\n");
    let table = searched(&scratch, &["search", "NN[0,2]N", "3", "plain.fa"]).0;
    let search = ["search", "NN[0,2]N", "3", "masked.fa", "--upper"];
    assert_eq!(searched(&scratch, &search), (table.clone(), told.clone()));
    // The job has no need of it any more.
    let job = [&search[..], &["--job", "job"]].concat();
    assert_eq!(searched(&scratch, &job), (table.clone(), told.clone()));
    assert!(fs::read(scratch.path("job/sequences.fa")).expect("a file") == plain);
    assert_eq!(
        searched(&scratch, &["resume", "job"]),
        (table, String::new())
    );
    let places =
        |file, more: &[&str]| searched(&scratch, &[&["places", "NN", "AC", file], more].concat());
    let of_plain = places("plain.fa", &[]).0;
    assert_eq!(places("masked.fa", &["--upper"]), (of_plain, told));
}

#[test]
fn upper_says_nothing_where_there_is_nothing_and_leaves_names() {
    let scratch = Scratch::new();
    scratch.file("a.fa", ">acgt acgt\nAC\n");
    let places = ["places", "N", "A", "a.fa", "--upper"];
    let rows = "motif\tname\tsequence\tstart1\nA\tacgt\t1\t1\n".to_string();
    assert_eq!(searched(&scratch, &places), (rows, String::new()));
    scratch.file("a.fa", ">a\nAc\n");
    let (_, said) = searched(&scratch, &["search", "N", "1", "a.fa", "--upper"]);
    assert_eq!(
        said,
        "tulfasheq: a.fa: 1 lower-case letter is taken as upper-case ones\n"
    );
}

#[test]
fn upper_takes_nothing_else() {
    let scratch = Scratch::new();
    scratch.file("a.fa", ">a\nacgtn\n");
    let said = crate::within::said(&scratch, &["search", "N", "1", "a.fa", "--upper"], 3);
    assert!(
        said.starts_with("a.fa:2:5: 'n' is no letter (refusal 4)\n"),
        "{said}"
    );
}

#[test]
fn letters_that_no_search_takes_are_told_with_what_can_be_done() {
    let several = "Leave such records out, or cut them there: sequences are of A, C, G and T alone, and only motifs may have others (--mixed).";
    let mut tried = 0;
    for (file, lines) in [
        (
            &b">a\nACgt\n>b\nAAa\n>c\nA"[..],
            vec![
                "2:3: 'g' is no letter: letters are upper case (refusal 4)",
                "The file has 3 lower-case letters, in 2 of its 3 records. --upper takes them as upper-case ones.",
            ],
        ),
        (
            b">a\nacNR\n",
            vec![
                "2:1: 'a' is no letter: letters are upper case (refusal 4)",
                "The file has 2 lower-case letters, in its one record. --upper takes them as upper-case ones.",
                "The file has 2 letters for several bases, such as N, in its one record.",
            ],
        ),
        (
            b">a\nAC\n>b NN\nAN\nNnr\n>c\nR\n",
            vec![
                "4:2: 'N' is no letter (refusal 4)",
                "It is in record 2 (b). The file has 5 letters for several bases, such as N, in 2 of its 3 records.",
                several,
            ],
        ),
        (
            b">\nAX\n",
            vec![
                "2:2: 'X' is no letter (refusal 4)",
                "It is in record 1. The file has 1 letter for several bases, such as N, in its one record.",
                several,
            ],
        ),
        (
            b">a\nACU\n>U\nuu\n",
            vec![
                "2:3: 'U' is no letter (refusal 4)",
                "It is in record 1 (a). The file has 3 letters U, of RNA, in 2 of its 2 records.",
                "sed '/^>/!y/Uu/Tt/' a.fa >NEW.fa writes T for it.",
            ],
        ),
        (
            b">a\nA--C.\n",
            vec![
                "2:2: '-' is no letter (refusal 4)",
                "It is in record 1 (a). The file has 3 gaps of an alignment, in its one record.",
                "sed '/^>/!s/[-.]//g' a.fa >NEW.fa leaves them out.",
            ],
        ),
        (
            b">a\nAC*\n",
            vec![
                "2:3: '*' is no letter (refusal 4)",
                "It is in record 1 (a). The file has 1 mark of a sequence's end, as in proteins, in its one record.",
                "sed '/^>/!s/[*]//g' a.fa >NEW.fa leaves them out; of a protein no search is made.",
            ],
        ),
        // M and K stand for several bases too.
        (
            b">p\nMKLE\n",
            vec![
                "2:1: 'M' is no letter (refusal 4)",
                "It is in record 1 (p). The file has 2 letters that no DNA has, in its one record.",
                "This looks like a protein: a search takes DNA, of A, C, G and T.",
            ],
        ),
        (
            b">p\n  1 ACGT ACG\n",
            vec![
                "2:1: a space is no letter (refusal 4)",
                "It is in record 1 (p). The file has 5 characters of layout (digits, spaces), in its one record.",
                "sed '/^>/!s/[0-9[:space:]]//g' a.fa >NEW.fa leaves them out.",
            ],
        ),
        (
            b">p\nACGT>q\nACG\n",
            vec![
                "2:5: '>' is no letter (refusal 4)",
                "It is in record 1 (p). The file has 1 mark > within a line, in its one record.",
                "Was a file without a last line end joined with another? awk 1 A.fa B.fa >NEW.fa joins them as they should be.",
            ],
        ),
        (
            b">p\nACGT\rAC\r\n",
            vec![
                "2:5: byte 13 is no letter (refusal 4)",
                "It is in record 1 (p). The file has 1 line end of byte 13 alone, in its one record.",
                "tr '\\r' '\\n' <a.fa >NEW.fa makes it one that can be read.",
            ],
        ),
        (
            b">\0p\0\n\0A\0C\0\n\0",
            vec![
                "2:1: byte 0 is no letter (refusal 4)",
                "It is in record 1 (\\u{0}p\\u{0}). The file has 4 bytes 0, as in UTF-16, in its one record.",
                "iconv -f UTF-16LE -t UTF-8 a.fa >NEW.fa makes plain text of it, if it is that.",
            ],
        ),
        (b">p\nAC!\n", vec!["2:3: '!' is no letter (refusal 4)"]),
    ] {
        assert_eq!(refused("a.fa", file, 3), format!("a.fa:{}\n", lines.join("\n")));
        let last = lines[lines.len() - 1];
        let command = last.split_once(" >NEW.fa ").map(|(command, _)| command);
        let Some(command) = command.filter(|text| text.starts_with("sed") || text.starts_with("tr"))
        else {
            continue;
        };
        // What is told to be done does it.
        let scratch = Scratch::new();
        scratch.file("a.fa", file);
        pasted(&scratch, &format!("{command} >NEW.fa"));
        searched(&scratch, &["search", "N", "1", "NEW.fa", "--upper"]);
        tried += 1;
    }
    assert_eq!(tried, 5);
}

#[test]
fn a_command_never_writes_over_a_file_that_is_there() {
    let told = |scratch: &Scratch, file: &str| {
        let words = ["search", "N", "1", file];
        crate::within::said(scratch, &words, 3)
    };
    let scratch = Scratch::new();
    scratch.file("NEW.fa", b">a\nACU\n");
    let said = told(&scratch, "NEW.fa");
    assert!(said.contains(" NEW.fa >NEW-2.fa "), "{said}");
    scratch.file("NEW-2.fa", b">a\nACU\n");
    let said = told(&scratch, "NEW-2.fa");
    assert!(said.contains(" NEW-2.fa >NEW-3.fa "), "{said}");
    // Links too, also to what is not there; and where the file is no plain one.
    symlink("NEW.fa", scratch.path("x.fa")).expect("a link");
    symlink("none", scratch.path("NEW-3.fa")).expect("a link");
    let said = told(&scratch, "x.fa");
    assert!(said.contains(" x.fa >NEW-4.fa "), "{said}");
    pasted(&scratch, "gzip -k NEW.fa");
    let said = told(&scratch, "NEW.fa.gz");
    assert!(said.contains(" FILE >NEW-4.fa "), "{said}");
}

#[test]
fn names_of_files_and_records_stand_as_they_are_beside_a_command() {
    assert_eq!(
        refused("MYFILE.fa", b">a\rACGT\r", 3),
        "MYFILE.fa:1:3: byte 13 within a name: lines that end in byte 13 alone are not read as lines\ntr '\\r' '\\n' <MYFILE.fa >NEW.fa makes it one that can be read.\n"
    );
    let said = refused("r.fa", b">FILE7\nACU\n", 3);
    assert!(said.contains("\nIt is in record 1 (FILE7). "), "{said}");
    let said = refused("r.fa", b">NEW.fa\nACU\n", 3);
    assert!(said.contains("\nIt is in record 1 (NEW.fa). "), "{said}");
    assert!(said.contains(" r.fa >NEW.fa "), "{said}");
}

#[test]
fn a_file_called_as_standard_input_is_another_one() {
    let scratch = Scratch::new();
    scratch.file("-", b">a\nACU\n");
    let mut search = crate::within::within(&scratch, &["search", "N", "1", "-"]);
    let file = fs::File::open(scratch.path("-")).expect("a file");
    let said = crate::within::ran(search.stdin(file)).said(3);
    assert!(said.contains(" FILE >NEW.fa "), "{said}");
}
