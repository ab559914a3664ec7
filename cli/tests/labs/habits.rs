//! Templates and quorums in habits of other tools, and words in another order:
//! refused as ever, with how to write them.

use crate::common::Scratch;
use crate::within::said;

/// What is said of a template or a quorum, behind the text and its caret.
fn told(words: [&str; 3]) -> String {
    let scratch = Scratch::new();
    scratch.file("a.fa", ">a\nACGTACGT\n");
    let all = [
        &["search"],
        &words[..],
        &["--out", "out.tsv", "--job", "job"],
    ]
    .concat();
    let said = said(&scratch, &all, 2);
    assert!(!scratch.path("out.tsv").exists() && !scratch.path("job").exists());
    assert!(said.contains(" cannot be read: "), "{said}");
    said.lines().skip(3).collect::<Vec<_>>().join("\n")
}

#[test]
fn a_template_of_another_tool_is_told_as_it_is_written_here() {
    for template in [
        "nnn[0,3]nn",
        "NNN[0-3]NN",
        "NNN[0..3]NN",
        "NNN [0,3] NN",
        "NNN[0, 3]NN",
        "NNN[0 3]NN",
        "NNN[00,03]NN",
        "N{3}[0,3]N{2}",
        "N3[0,3]N2",
        "xxx[0,3]xx",
        "...[0,3]..",
        "NNN.{0,3}NN",
    ] {
        assert_eq!(
            told([template, "1", "a.fa"]),
            "Write it NNN[0,3]NN.",
            "{template}"
        );
    }
    assert_eq!(told(["NNN[3]NN", "1", "a.fa"]), "Write it NNN[3,3]NN.");
    for template in ["NNN{0,3}NN", "NNN(0,3)NN"] {
        assert_eq!(
            told([template, "1", "a.fa"]),
            "A gap of 0 to 3 letters is written [0,3].",
            "{template}"
        );
    }
    for template in [
        "[0,3]NN",
        "NN[0,3]",
        "NN[3",
        "NN[,3]N",
        "NN{2}N",
        "N[1 0,3]N",
        "N{5000}",
        "N{99999999999999999999}",
    ] {
        assert_eq!(told([template, "1", "a.fa"]), "", "{template}");
    }
}

#[test]
fn a_motif_in_the_place_of_a_template_is_told_as_one() {
    let these = "These are a motif's letters: a template has runs of N in their place";
    let places = "Where a motif occurs is told by tulfasheq places MOTIF FILE.fa.";
    for motif in ["ACG[0,3]TA", "acg[0-3]ta"] {
        assert_eq!(
            told([motif, "1", "a.fa"]),
            format!("{these}, NNN[0,3]NN.\n{places}")
        );
    }
    // An N may be one of a gap here.
    for motif in ["RYN{0,3}NN", "ACGNNNTA", "ACn[0,3]TA"] {
        assert_eq!(told([motif, "1", "a.fa"]), format!("{these}.\n{places}"));
    }
    // The same words fit one who called places.
    let scratch = Scratch::new();
    scratch.file("a.fa", ">a\nACGT\n");
    scratch.file("c.tsv", "motif\nACGT\n");
    let words = ["places", "ACGT", "a.fa", "--list", "c.tsv"];
    let told = said(&scratch, &words, 2);
    assert!(
        told.ends_with(&format!("{these}, NNNN.\n{places}\n")),
        "{told}"
    );
}

#[test]
fn a_quorum_of_another_habit_is_told_as_it_is_written_here() {
    for (quorum, written) in [
        ("0.5", "50%"),
        (".5", "50%"),
        ("1/2", "50%"),
        ("12,5%", "12.5%"),
        ("12 %", "12%"),
        ("50 percent", "50%"),
        ("1e2", "100"),
        ("1,024", "1024"),
    ] {
        assert_eq!(
            told(["NN", quorum, "a.fa"]),
            format!("Write it {written}."),
            "{quorum}"
        );
    }
    assert_eq!(
        told(["NN", "1.0", "a.fa"]),
        "Write it 100%, or 1 for one sequence."
    );
    assert_eq!(
        told(["NN", "2.0", "a.fa"]),
        "Write it 2 for 2 sequences, or 2% for a share of them."
    );
    for quorum in ["half", "-1", "1000%", ""] {
        assert_eq!(told(["NN", quorum, "a.fa"]), "", "{quorum}");
    }
}

#[test]
fn words_in_another_order_are_told() {
    let quorum = "This is a quorum: the template comes first, then the quorum, and the file last (tulfasheq search --help).";
    assert_eq!(told(["1", "NN", "a.fa"]), quorum);
    assert_eq!(told(["50%", "NN", "a.fa"]), quorum);
    let file = "This is a file: the template comes first, and the file last.";
    assert_eq!(told(["a.fa", "NN", "1"]), file);
    let file = "This is a file: the template comes first, then the quorum, and the file last.";
    assert_eq!(told(["NN", "a.fa", "1"]), file);
    assert_eq!(told(["NN", "b.fa", "1"]), "");
}
