//! What goes to standard error. Where that is closed too, nobody can be told.

use crate::out::Out;
use std::ffi::OsString;
use std::fmt::Write as _;
use std::io::{self, Write as _};
use std::os::unix::ffi::OsStrExt;
use std::path::Path;

/// Where ./tulfasheq, which builds and starts the program, tells as what it was
/// called.
const CALLED: &str = "TULFASHEQ_CALLED";

/// Says lines on standard error.
pub fn say(words: &str) {
    let mut error = io::stderr().lock();
    let _ = writeln!(error, "{}", harmless(words));
    let _ = error.flush();
}

/// A path as a shell reads it: in quotes where it has more than plain
/// characters.
pub fn quoted(path: &Path) -> String {
    let mut bytes = path.as_os_str().as_bytes().to_vec();
    if bytes.starts_with(b"-") {
        bytes.splice(..0, *b"./");
    }
    let text = match String::from_utf8(bytes) {
        Ok(text) if !text.contains(char::is_control) => text,
        Ok(text) => return numbered(text.as_bytes()),
        Err(error) => return numbered(error.as_bytes()),
    };
    let plain = |c: char| c.is_alphanumeric() || "/._-+,:@%".contains(c);
    if !text.is_empty() && text.chars().all(plain) {
        return text;
    }
    format!("'{}'", text.replace('\'', "'\\''"))
}

/// A path in the quotes that have bytes by their numbers, as bash, ksh and zsh
/// read them. An octal number ends by itself; a hexadecimal one does not in all
/// of them.
fn numbered(path: &[u8]) -> String {
    let mut text = String::from("$'");
    for part in path.utf8_chunks() {
        for c in part.valid().chars() {
            match c {
                '\'' | '\\' => text.extend(['\\', c]),
                c if c.is_control() => number(c.to_string().as_bytes(), &mut text),
                c => text.push(c),
            }
        }
        number(part.invalid(), &mut text);
    }
    text.push('\'');
    text
}

/// Writes bytes by their numbers.
fn number(bytes: &[u8], to: &mut String) {
    for byte in bytes {
        // To write to memory does not fail.
        let _ = write!(to, "\\{byte:03o}");
    }
}

/// What the program was called as, so that it can be called so again.
pub fn called() -> String {
    let known = |name: &OsString| !name.is_empty();
    std::env::var_os(CALLED)
        .filter(known)
        .or_else(|| std::env::args_os().next().filter(known))
        .map_or("tulfasheq".to_string(), |name| quoted(Path::new(&name)))
}

/// The command that goes on with a job, as it can be pasted into a shell.
pub fn again(folder: &Path, out: &Out) -> String {
    let out = match &out.file {
        Some(file) => format!(" --out {}", quoted(file)),
        None => String::new(),
    };
    format!("{} resume {}{out}", called(), quoted(folder))
}

/// The words as a terminal may show them: what a name of a file or a word of
/// the command line has of control characters, a line end apart, is told by
/// its number, and does not steer the terminal.
fn harmless(words: &str) -> String {
    let mut text = String::new();
    for c in words.chars() {
        match c {
            '\n' => text.push(c),
            c if c.is_control() => text.extend(c.escape_unicode()),
            c => text.push(c),
        }
    }
    text
}

#[cfg(test)]
mod tests {
    use super::{harmless, quoted};
    use std::ffi::OsStr;
    use std::os::unix::ffi::OsStrExt;
    use std::path::Path;
    use std::process::Command;

    #[test]
    fn a_shell_reads_a_quoted_path_as_it_is() {
        assert_eq!(quoted(Path::new("jobs/a-1.job")), "jobs/a-1.job");
        assert_eq!(quoted(Path::new("my job")), "'my job'");
        assert_eq!(quoted(Path::new("it's")), "'it'\\''s'");
        assert_eq!(quoted(Path::new("--out")), "./--out");
        assert_eq!(quoted(Path::new("Proben für Ä/1")), "'Proben für Ä/1'");
        assert_eq!(
            quoted(Path::new("a\tb'c\\\u{85}ä")),
            r"$'a\011b\'c\\\302\205ä'"
        );
        let odd = OsStr::from_bytes(b"-a\xff1");
        assert_eq!(quoted(Path::new(odd)), r"$'./-a\3771'");
    }

    #[test]
    fn bash_reads_a_path_of_odd_bytes_as_it_is() {
        for path in [
            &b"a\tb\nc"[..],
            b"it's\\\xff0",
            b"\x1b[2J",
            b"-\x7f",
            "ä\u{9b}1".as_bytes(),
        ] {
            let quoted = quoted(Path::new(OsStr::from_bytes(path)));
            assert_eq!(harmless(&quoted), quoted);
            let mut bash = Command::new("bash");
            let printed = bash.args(["-c", &format!("printf %s {quoted}")]).output();
            let printed = printed.expect("bash").stdout;
            assert_eq!(
                printed.strip_prefix(b"./").unwrap_or(&printed),
                path,
                "{quoted}"
            );
        }
    }

    #[test]
    fn control_characters_are_told_by_their_numbers() {
        assert_eq!(harmless("a ä\n'b'"), "a ä\n'b'");
        assert_eq!(harmless("\u{1b}[2J\r"), "\\u{1b}[2J\\u{d}");
    }
}
