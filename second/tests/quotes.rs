//! What a page quotes, and what is told of a wrong quote, on made-up pages and
//! files.

mod common;

use common::quotes::{quotes, wrong, Quote};

/// Made-up files.
fn made_up(path: &str) -> Result<String, String> {
    match path {
        "a/one" => Ok("first\n    second b\n\n    third\nfourth\n".to_string()),
        "a/two" => Ok("first\nother\n".to_string()),
        _ => Err("not there".to_string()),
    }
}

/// A made-up page with these lines of a/one, and a right quote after it.
fn page(lines: &str) -> String {
    format!(
        "# Page\n\nFrom `a/one`, the `b` and\nmore:\n\n```\n{lines}\n```\n\n\
         From `a/two`:\n```text\nother\n```\n"
    )
}

#[test]
fn a_quote_has_its_file_and_its_lines() {
    let page = page("    second b\n\n    third");
    let expected = [
        Quote {
            path: "a/one",
            at: 6,
            lines: vec!["    second b", "", "    third"],
        },
        Quote {
            path: "a/two",
            at: 13,
            lines: vec!["other"],
        },
    ];
    assert_eq!(quotes(&page).unwrap(), expected);
    assert_eq!(wrong(&page, made_up), [""; 0]);
}

#[test]
fn a_wrong_quote_is_told() {
    for (lines, first) in [
        ("    second c", "second c"),
        ("second b", "second b"),
        ("    second", "second"),
        ("    second b ", "second b"),
        ("    second b\n    third", "second b"),
        ("    third\n    second b", "third"),
        ("    third\nfourth\nfifth", "third"),
        ("other", "other"),
    ] {
        let told = format!("the block at line 6 ({first}) no longer stands in a/one");
        assert_eq!(wrong(&page(lines), made_up), [told], "{lines:?}");
    }
    let two = page("fifth").replace("a/two", "b");
    assert_eq!(
        wrong(&two, made_up),
        [
            "the block at line 6 (fifth) no longer stands in a/one",
            "the block at line 11 (other): no b: not there",
        ]
    );
}

#[test]
fn a_page_that_does_not_say_what_it_quotes_is_told() {
    let sound = page("first");
    for (page, told) in [
        ("".to_string(), "quotes: 0, and two at least are wanted"),
        (
            "From `a/one`:\n```\nfirst\n```\n".to_string(),
            "quotes: 1, and two at least are wanted",
        ),
        (
            sound.clone() + "```\nother\n```\n",
            "the block at line 14 is quoted from no file",
        ),
        (
            sound.replace("From `a/one`", "Of `a/one`"),
            "the block at line 6 is quoted from no file",
        ),
        (page(""), "the block at line 6 is empty"),
        (
            sound.replace("more:", "From `a/two`:"),
            "before line 4 nothing is quoted from a/one",
        ),
        (
            sound.clone() + "\nFrom `a/one`:\n",
            "at the end nothing is quoted from a/one",
        ),
        // The last block has no end.
        (
            sound.clone() + "From `a/one`\n```\nfirst\nmore\n",
            "the block at line 15 (first) no longer stands in a/one",
        ),
    ] {
        assert_eq!(wrong(&page, made_up), [told], "{page}");
    }
}
