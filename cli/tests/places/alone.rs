//! A motif alone tells its template, and its letters the allowances.

use crate::case::{Case, USUAL};
use crate::common::{run, word, Random, Scratch};
use second::Profile;

const FILE: &[u8] = b">a\nACGTACGTA\n>b\nACGGTA\n";

/// Runs `places` on a file of two records, with these words before it.
fn ask(before: &[&str], after: &[&str]) -> crate::common::Ran {
    let scratch = Scratch::new();
    let file = scratch.file("file.fa", FILE);
    run(&[&["places"], before, &[word(&file)], after].concat())
}

#[test]
fn a_motif_alone_has_the_rows_of_its_shape() {
    let mut random = Random::new(21);
    let mut mixed = 0;
    for _ in 0..30 {
        let case = Case::random(&mut random, USUAL);
        let (_, motif) = case.motif(&mut random);
        let scratch = Scratch::new();
        let file = scratch.file("file.fa", case.file(&mut random));
        let file = word(&file);
        let words = case.words();
        let words: Vec<&str> = words.iter().map(String::as_str).collect();
        let told = [&["places"], &words[..], &[&motif, file]].concat();
        let told = run(&told).printed();
        // Without the allowances, without the template, and both in a list.
        assert_eq!(run(&["places", &motif, file]).printed(), told);
        let shaped = ["places", words[0], &motif, file];
        assert_eq!(run(&shaped).printed(), told);
        let list = format!("motif\n{motif}\n# end: steps 1, rows 1\n");
        let list = scratch.file("list", list);
        let listed = ["places", words[0], file, "--list", word(&list)];
        assert_eq!(run(&listed).printed(), told);
        mixed += usize::from(case.template.profile == Profile::Mixed);
    }
    assert!(mixed > 5, "{mixed}");
}

#[test]
fn a_list_has_the_allowances_that_its_rows_need() {
    let scratch = Scratch::new();
    let rows = "motif\nAC[0,3]GT\nAY[0,3]GT\nAC[0,3]KK\n# end: steps 1, rows 3\n";
    let list = scratch.file("list", rows);
    let list = ["--list", word(&list)];
    let given = ask(&["NN[0,3]NN"], &[&list[..], &["--mixed=1,2"]].concat());
    let worked_out = ask(&["NN[0,3]NN"], &list);
    assert_eq!(worked_out.printed(), given.printed());
    let fewer = ask(&["NN[0,3]NN"], &[&list[..], &["--mixed=1,1"]].concat());
    let said = fewer.said(3);
    assert!(said.contains("list:4: AC[0,3]KK has more"), "{said}");
    // More letters than a mixed motif has: what it reads are exact ones.
    let long = "A".repeat(9);
    let rows = format!("motif\n{long}[0,3]{long}\n{long}[0,3]{}R\n", "A".repeat(8));
    let list = scratch.file("list", rows);
    let shape = format!("{0}[0,3]{0}", "N".repeat(9));
    let said = ask(&[&shape], &["--list", word(&list)]).said(3);
    assert!(
        said.contains("list:3: ") && said.contains("R stands for"),
        "{said}"
    );
}

#[test]
fn what_is_no_motif_is_said() {
    for template in ["NNN[0,3]NN", "N", "NN[0,"] {
        let said = ask(&[template], &[]).said(2);
        assert!(
            said.contains(&format!("{template} is a template")),
            "{said}"
        );
    }
    for (motif, caret) in [
        ("ACX[0,3]TA", "  ACX[0,3]TA\n    ^\n"),
        ("ACN[0,3]TA", "  ACN[0,3]TA\n    ^\n"),
        ("acg", "  acg\n  ^\n"),
        ("AC GT", "  AC GT\n    ^\n"),
    ] {
        let said = ask(&[motif], &[]).said(2);
        assert!(said.ends_with(caret), "{said}");
    }
    let said = ask(&["AC[0,x]GT"], &[]).said(2);
    assert!(said.contains("the shape of the motif AC[0,x]GT"), "{said}");
    // What the library refuses of it has its number.
    let long = "A".repeat(13);
    assert!(ask(&[&long], &[]).said(3).contains("refusal 6"));
    let mixed = format!("R{}[0,3]{}", "A".repeat(8), "A".repeat(8));
    assert!(ask(&[&mixed], &[]).said(3).contains("refusal 7"));
    let beyond = ask(&["RR[0,3]AC"], &["--mixed=1,0"]).said(3);
    assert!(beyond.contains("refusal 14"), "{beyond}");
}
