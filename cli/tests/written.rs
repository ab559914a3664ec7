//! What may stand where a table goes: links, permissions, pipes, devices, and
//! places that cannot be written.

mod common;
#[path = "common/within.rs"]
mod within;

use common::{parts, program, Scratch};
use std::fs::{self, File, Permissions};
use std::os::unix::fs::{symlink, FileTypeExt, MetadataExt, PermissionsExt};
use std::path::Path;
use std::process::{Command, Stdio};
use std::thread;
use within::{ran, within};

const FILE: &str = ">a\nACGTACGT\n>b\nACGGT\n";
const SEARCH: [&str; 4] = ["search", "NN", "1", "a.fa"];
const OLD: &str = "an older table\n";

/// A folder with a file of two sequences, and the table of `SEARCH`.
fn folder() -> (Scratch, Vec<u8>) {
    let scratch = Scratch::new();
    scratch.file("a.fa", FILE);
    let table = ran(&mut within(&scratch, &SEARCH)).printed();
    (scratch, table)
}

/// `SEARCH` with its table going to a file.
fn to(scratch: &Scratch, out: &str) -> Command {
    within(scratch, &[&SEARCH[..], &["--out", out]].concat())
}

fn read(path: &Path) -> Vec<u8> {
    fs::read(path).expect("a file")
}

#[test]
fn a_link_stays_and_what_it_leads_to_is_replaced() {
    let (scratch, table) = folder();
    fs::create_dir_all(scratch.path("else/where")).expect("a folder");
    let target = scratch.file("else/where/table.tsv", OLD);
    symlink("else/where/table.tsv", scratch.path("link.tsv")).expect("a link");
    symlink("../link.tsv", scratch.path("else/again.tsv")).expect("a link");
    for out in ["link.tsv", "else/again.tsv"] {
        fs::write(&target, OLD).expect("the older one");
        ran(&mut to(&scratch, out)).printed();
        assert_eq!(read(&target), table);
        assert!(scratch.path(out).is_symlink());
        assert!(fs::metadata(&target).expect("a file").is_file());
    }
    // One to nothing yet makes what it leads to.
    symlink("else/new.tsv", scratch.path("new.tsv")).expect("a link");
    ran(&mut to(&scratch, "new.tsv")).printed();
    assert!(scratch.path("new.tsv").is_symlink());
    assert_eq!(read(&scratch.path("else/new.tsv")), table);
    symlink("round.tsv", scratch.path("round.tsv")).expect("a link");
    let said = ran(&mut to(&scratch, "round.tsv")).said(4);
    assert!(said.starts_with("tulfasheq: round.tsv: "), "{said}");
    // Another name of the older file keeps it.
    fs::write(&target, OLD).expect("the older one");
    fs::hard_link(&target, scratch.path("hard.tsv")).expect("a link");
    ran(&mut to(&scratch, "link.tsv")).printed();
    assert_eq!(read(&target), table);
    assert_eq!(read(&scratch.path("hard.tsv")), OLD.as_bytes());
}

#[test]
fn the_permissions_of_the_older_file_are_kept() {
    let (scratch, table) = folder();
    for mode in [0o600, 0o640, 0o666, 0o755] {
        let out = scratch.file("table.tsv", OLD);
        fs::set_permissions(&out, Permissions::from_mode(mode)).expect("a mode");
        let before = fs::metadata(&out).expect("a file");
        ran(&mut to(&scratch, "table.tsv")).printed();
        let after = fs::metadata(&out).expect("a file");
        assert_eq!(after.mode() & 0o7777, mode);
        assert_eq!((after.uid(), after.gid()), (before.uid(), before.gid()));
        assert!(after.ino() != before.ino(), "it is a new file");
        assert_eq!(read(&out), table);
    }
}

#[test]
fn what_is_no_plain_file_is_written_as_it_is() {
    let (scratch, table) = folder();
    // Standard output by its name, where it is a file: what stands in it goes,
    // and it is the same file.
    for name in ["/dev/stdout", "/dev/fd/1", "/proc/self/fd/1"] {
        let out = scratch.file("table.tsv", OLD);
        let number = fs::metadata(&out).expect("a file").ino();
        let open = File::options().write(true).open(&out).expect("a file");
        ran(to(&scratch, name).stdout(open)).printed();
        assert_eq!(read(&out), table, "{name}");
        assert_eq!(fs::metadata(&out).expect("a file").ino(), number);
    }
    let pipe = scratch.path("pipe");
    let made = Command::new("mkfifo").arg(&pipe).status().expect("mkfifo");
    assert!(made.success());
    let reader = thread::spawn({
        let pipe = pipe.clone();
        move || read(&pipe)
    });
    ran(&mut to(&scratch, "pipe")).printed();
    assert_eq!(reader.join().expect("what came"), table);
    assert!(fs::symlink_metadata(&pipe)
        .expect("it is there")
        .file_type()
        .is_fifo());
    let said = ran(&mut to(&scratch, "/dev/full")).said(4);
    assert!(said.contains("no space left on device"), "{said}");
    assert!(parts(&scratch.path("")).is_empty());
    assert!(parts(Path::new("/dev")).is_empty());
}

#[test]
fn the_file_that_is_written_beside_is_of_the_program_alone() {
    let (scratch, table) = folder();
    let part = "table.tsv.tulfasheq-part";
    // What a killed program left is written over, also where it has another
    // name, which keeps it.
    let left = scratch.file(part, "left");
    fs::hard_link(&left, scratch.path("other")).expect("a link");
    ran(&mut to(&scratch, "table.tsv")).printed();
    assert_eq!(read(&scratch.path("table.tsv")), table);
    assert_eq!(read(&scratch.path("other")), b"left");
    assert!(parts(&scratch.path("")).is_empty());
    // A link or a folder is left alone.
    symlink("other", scratch.path(part)).expect("a link");
    let said = ran(&mut to(&scratch, "table.tsv")).said(4);
    assert!(
        said.contains(part) && said.contains("no plain file"),
        "{said}"
    );
    assert_eq!(read(&scratch.path("other")), b"left");
    fs::remove_file(scratch.path(part)).expect("it goes");
    fs::create_dir(scratch.path(part)).expect("a folder");
    ran(&mut to(&scratch, "table.tsv")).said(4);
    fs::remove_dir(scratch.path(part)).expect("it goes");
    // It is not one that is read.
    fs::write(scratch.path(part), &table).expect("a file");
    let words = ["places", "NN", "a.fa", "--list", part, "--out", "table.tsv"];
    let said = ran(&mut within(&scratch, &words)).said(2);
    assert!(
        said.contains("would write over") && said.contains(part),
        "{said}"
    );
    assert_eq!(read(&scratch.path(part)), table);
    // Names of any length, and a folder that is none.
    let long = "t".repeat(255);
    ran(&mut to(&scratch, &long)).printed();
    assert_eq!(read(&scratch.path(&long)), table);
    for name in ["new/", "new/.", "table.tsv/", "a.fa/x", ".", "/"] {
        ran(&mut to(&scratch, name)).said(4);
        assert!(!scratch.path("new").exists());
    }
}

/// The program as a user who may not write everywhere: where the tests run as
/// root, one that owns nothing.
fn as_someone(scratch: &Scratch, words: &[&str]) -> Command {
    use std::os::unix::process::CommandExt;
    let copy = scratch.path("program");
    if !copy.exists() {
        // By a process of its own: a test beside this one that starts a program
        // while the copy is open for writing would hold it open, and then it
        // could not be started.
        let mut copying = Command::new("cp");
        copying.arg(program().get_program()).arg(&copy);
        assert!(copying.status().expect("cp starts").success());
        fs::set_permissions(scratch.path(""), Permissions::from_mode(0o755)).expect("a mode");
    }
    let mut command = Command::new(copy);
    command.current_dir(scratch.path(""));
    command.args(words).stdin(Stdio::null());
    if is_root() {
        command.uid(65534).gid(65534);
    }
    command
}

fn is_root() -> bool {
    fs::metadata("/proc/self").expect("this process").uid() == 0
}

#[test]
fn a_part_of_another_user_that_may_not_be_removed_is_told() {
    let (scratch, _) = folder();
    if !is_root() {
        println!("only root can make another user's file: not tested");
        return;
    }
    let sticky = scratch.path("sticky");
    fs::create_dir(&sticky).expect("a folder");
    fs::set_permissions(&sticky, Permissions::from_mode(0o1777)).expect("a mode");
    let part = scratch.file("sticky/table.tsv.tulfasheq-part", "another's");
    for mode in [0o600, 0o644, 0o666] {
        fs::set_permissions(&part, Permissions::from_mode(mode)).expect("a mode");
        let words = [&SEARCH[..], &["--out", "sticky/table.tsv"]].concat();
        let said = ran(&mut as_someone(&scratch, &words)).said(4);
        assert!(said.contains("table.tsv.tulfasheq-part: "), "{said}");
        assert!(
            said.contains("permitted") || said.contains("permission denied"),
            "{said}"
        );
        assert!(
            said.contains("have it removed, or write to another file by --out"),
            "{said}"
        );
        assert_eq!(read(&part), b"another's");
    }
}

#[test]
fn a_place_that_cannot_be_written_is_noticed_before_the_search() {
    let (scratch, table) = folder();
    let mode = |name: &str, mode| {
        fs::set_permissions(scratch.path(name), Permissions::from_mode(mode)).expect("a mode");
    };
    for (name, bits) in [
        ("shut", 0o555),
        ("open", 0o777),
        ("sticky", 0o1777),
        ("blind", 0o333),
    ] {
        fs::create_dir(scratch.path(name)).expect("a folder");
        for (file, bits) in [("mine.tsv", 0o444), ("all.tsv", 0o666)] {
            let path = format!("{name}/{file}");
            scratch.file(&path, OLD);
            mode(&path, bits);
        }
        mode(name, bits);
    }
    let mut outs = vec![
        "shut/new.tsv",
        "shut/all.tsv",
        "shut/mine.tsv",
        "open/mine.tsv",
    ];
    if is_root() {
        // Only who owns a file may replace it there.
        outs.push("sticky/all.tsv");
    }
    for out in outs {
        // With a job it would be written when all has ended.
        for job in [&["--job", "open/job"][..], &[]] {
            let words = [&SEARCH[..], &["--out", out], job].concat();
            let said = ran(&mut as_someone(&scratch, &words)).said(4);
            assert!(said.contains(out), "{said}");
            assert!(!scratch.path("open/job").exists(), "{out}: it was begun");
        }
        let places = ["places", "NN", "AC", "a.fa", "--out", out];
        ran(&mut as_someone(&scratch, &places)).said(4);
    }
    for out in [
        "open/new.tsv",
        "open/all.tsv",
        "sticky/new.tsv",
        "blind/new.tsv",
    ] {
        let words = [&SEARCH[..], &["--out", out]].concat();
        ran(&mut as_someone(&scratch, &words)).printed();
        assert_eq!(read(&scratch.path(out)), table, "{out}");
    }
    for name in ["shut", "open", "sticky", "blind"] {
        mode(name, 0o755);
        assert!(parts(&scratch.path(name)).is_empty(), "{name}");
        assert_eq!(
            read(&scratch.path(&format!("{name}/mine.tsv"))),
            OLD.as_bytes()
        );
    }
}
