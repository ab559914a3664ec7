//! Files that are no FASTA are told by what they are, with what makes FASTA of
//! them.

use crate::common::Scratch;
use crate::{pasted, refused, searched};
use std::process::Command;

#[test]
fn a_file_of_another_kind_is_told_with_what_to_do() {
    let tar = [&b"a.fa"[..], &[0; 253], b"ustar", &[0; 250]].concat();
    for (file, what, hint) in [
        (&b"BZh91AY"[..], "a bz2 file", "bzip2 -dc x >NEW.fa unpacks it."),
        (b"\xfd7zXZ\0\0", "an xz file", "xz -dc x >NEW.fa unpacks it."),
        (b"\x28\xb5\x2f\xfd\0", "a zst file", "zstd -dc x >NEW.fa unpacks it."),
        (b"\x1f\x9d\x90", "a Z file", "gzip -dc x >NEW.fa unpacks it."),
        (b"PK\x03\x04\n", "a zip file", "unzip -p x >NEW.fa unpacks it, where it holds one file alone."),
        (b"7z\xbc\xaf\x27\x1c\0", "a 7z file", "7z x -so x >NEW.fa unpacks it, where it holds one file alone."),
        (&tar, "a tar archive", "tar -xf unpacks it: pass the FASTA file in it."),
        (
            b"@r1\nACGT\n+\nIIII\n",
            "this looks like FASTQ",
            "awk 'NR%4==1{print \">\" substr($0,2)} NR%4==2' x >NEW.fa makes FASTA of it, where each read has four lines.",
        ),
        (b"@HD\tVN:1.6\n", "a SAM file", "samtools fasta x >NEW.fa makes FASTA of it."),
        (b"BAM\x01\0", "a BAM file", "samtools fasta makes FASTA of it."),
        (
            b"LOCUS       NC_1 10 bp\n",
            "this looks like GenBank",
            "seqret -sequence genbank::x -outseq fasta::NEW.fa (of EMBOSS) makes FASTA of it.",
        ),
        (
            b"ID   X56734; SV 1;\n",
            "this looks like EMBL",
            "seqret -sequence embl::x -outseq fasta::NEW.fa (of EMBOSS) makes FASTA of it.",
        ),
        (
            b"##gff-version 3\n##FASTA\n>a\nACGT\n",
            "this looks like GFF",
            "Where it has its sequences, behind ##FASTA: sed '1,/^##FASTA/d' x >NEW.fa takes them out.",
        ),
        (b"\x1a\x41\x27\x43\0", "a 2bit file", "twoBitToFa x NEW.fa makes FASTA of it."),
        (b"\xff\xfe>\0a\0", "UTF-16", "iconv -f UTF-16 -t UTF-8 x >NEW.fa makes plain text of it."),
        (b"\xfe\xff\0>\0a", "UTF-16", "iconv -f UTF-16 -t UTF-8 x >NEW.fa makes plain text of it."),
        (b"\xef\xbb\xbf>a\nACGT\n", "a byte order mark", "tail -c +4 x >NEW.fa leaves it out."),
        (
            b"ACGTNacgt\r\nACGT",
            "letters without a name",
            "A record begins with a line of > and a name: (echo '>NAME'; cat x) >NEW.fa puts one there.",
        ),
    ] {
        assert_eq!(
            refused("x", file, 3),
            format!("x:1:1: text before the first '>': {what} (refusal 19)\n{hint}\n")
        );
    }
    for (file, what) in [
        (&b"<!DOCTYPE html>\n"[..], "HTML or XML"),
        (b"\n{\"error\": 404}\n", "JSON"),
        (b"\n[]", "JSON"),
    ] {
        let said = refused("x", file, 3);
        assert!(said.contains(&format!("1: text before the first '>': this looks like {what} (refusal 19)\nWas an error or a web page saved")), "{said}");
    }
}

#[test]
fn what_is_told_to_be_done_makes_a_file_that_can_be_read() {
    for (file, command) in [
        (
            &b"@r1\nACGT\n+\n@III\n@r2\nAC\n+\n>I\n"[..],
            "awk 'NR%4==1{print \">\" substr($0,2)} NR%4==2' x >NEW.fa",
        ),
        (
            b"##gff-version 3\n##FASTA\n>a\nACGT\n>b\nA",
            "sed '1,/^##FASTA/d' x >NEW.fa",
        ),
        (b"\xef\xbb\xbf>a\nACGT\n>b\nA\n", "tail -c +4 x >NEW.fa"),
        (b"ACGT\nA\n", "(echo '>NAME'; cat x) >NEW.fa"),
    ] {
        let said = refused("x", file, 3);
        assert!(said.contains(command), "{said}");
        let scratch = Scratch::new();
        scratch.file("x", file);
        pasted(&scratch, command);
        let (table, _) = searched(&scratch, &["search", "NNNN", "1", "NEW.fa"]);
        assert!(table.contains("\nACGT\t1\t1\n"), "{table}");
    }
}

#[test]
fn files_that_other_tools_packed_are_known() {
    for (tool, what) in [("bzip2", "bz2"), ("xz", "xz"), ("zstd", "zst")] {
        let scratch = Scratch::new();
        scratch.file("a.fa", ">a\nACGT\n");
        let mut packing = Command::new(tool);
        let packing = packing
            .args(["-q", "-k", "a.fa"])
            .current_dir(scratch.path(""));
        // Where there is none, its files are known by their first bytes above.
        let Ok(status) = packing.status() else {
            continue;
        };
        assert!(status.success(), "{tool}");
        let name = format!("a.fa.{what}");
        let packed = std::fs::read(scratch.path(&name)).expect("a file");
        let said = refused(&name, &packed, 3);
        assert!(
            said.contains(&format!(
                " {what} file (refusal 19)\n{tool} -dc a.fa.{what} >NEW.fa"
            )),
            "{said}"
        );
    }
}
