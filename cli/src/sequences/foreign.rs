//! Files of labs that are no FASTA, known by how they begin, and what makes a
//! FASTA file of each.

/// A kind of file.
#[derive(Debug)]
pub struct Kind {
    begins: &'static [u8],
    /// What it is.
    pub what: &'static str,
    /// What can be done.
    pub hint: &'static str,
}

const fn kind(begins: &'static [u8], what: &'static str, hint: &'static str) -> Kind {
    Kind { begins, what, hint }
}

/// What to do with a page.
const PAGE: &str =
    "Was an error or a web page saved in the place of the file? Look at it, and download it again.";

/// The kinds. Of two that begin alike the longer one stands first.
const KINDS: [Kind; 26] = [
    // What gzip packed was unpacked once already.
    kind(b"\x1f\x8b", "packed twice by gzip", "Unpack it to the end: gzip -dc, twice."),
    kind(b"\x1f\x9d", "a Z file", "gzip -dc FILE >NEW.fa unpacks it."),
    kind(b"BZh", "a bz2 file", "bzip2 -dc FILE >NEW.fa unpacks it."),
    kind(b"\xfd7zXZ\0", "an xz file", "xz -dc FILE >NEW.fa unpacks it."),
    kind(b"\x28\xb5\x2f\xfd", "a zst file", "zstd -dc FILE >NEW.fa unpacks it."),
    kind(b"PK\x03\x04", "a zip file", "unzip -p FILE >NEW.fa unpacks it, where it holds one file alone."),
    kind(b"7z\xbc\xaf\x27\x1c", "a 7z file", "7z x -so FILE >NEW.fa unpacks it, where it holds one file alone."),
    kind(b"\xff\xfe", "UTF-16", "iconv -f UTF-16 -t UTF-8 FILE >NEW.fa makes plain text of it."),
    kind(b"\xfe\xff", "UTF-16", "iconv -f UTF-16 -t UTF-8 FILE >NEW.fa makes plain text of it."),
    kind(b"\xef\xbb\xbf", "a byte order mark", "tail -c +4 FILE >NEW.fa leaves it out."),
    kind(b"\x1a\x41\x27\x43", "a 2bit file", "twoBitToFa FILE NEW.fa makes FASTA of it."),
    kind(b"\x43\x27\x41\x1a", "a 2bit file", "twoBitToFa FILE NEW.fa makes FASTA of it."),
    kind(b"BAM\x01", "a BAM file", "samtools fasta makes FASTA of it."),
    kind(b"@HD\t", "a SAM file", "samtools fasta FILE >NEW.fa makes FASTA of it."),
    kind(b"@SQ\t", "a SAM file", "samtools fasta FILE >NEW.fa makes FASTA of it."),
    kind(b"@", "this looks like FASTQ", "awk 'NR%4==1{print \">\" substr($0,2)} NR%4==2' FILE >NEW.fa makes FASTA of it, where each read has four lines."),
    kind(b"LOCUS", "this looks like GenBank", "seqret -sequence genbank::FILE -outseq fasta::NEW.fa (of EMBOSS) makes FASTA of it."),
    kind(b"ID   ", "this looks like EMBL", "seqret -sequence embl::FILE -outseq fasta::NEW.fa (of EMBOSS) makes FASTA of it."),
    kind(b"##gff", "this looks like GFF", "Where it has its sequences, behind ##FASTA: sed '1,/^##FASTA/d' FILE >NEW.fa takes them out."),
    kind(b"##fileformat=VCF", "this looks like VCF", "It has no sequences: pass the FASTA file that it goes with."),
    kind(b"CLUSTAL", "this looks like an alignment", "Pass the sequences that were aligned, as FASTA."),
    kind(b"# STOCKHOLM", "this looks like an alignment", "Pass the sequences that were aligned, as FASTA."),
    kind(b"{\\rtf", "an RTF text", "Save it as plain text."),
    kind(b"<", "this looks like HTML or XML", PAGE),
    kind(b"{", "this looks like JSON", PAGE),
    kind(b"[", "this looks like JSON", PAGE),
];

/// An archive, which tells its kind not by its first bytes.
const TAR: Kind = kind(
    b"ustar",
    "a tar archive",
    "tar -xf unpacks it: pass the FASTA file in it.",
);

/// Letters without a name.
const BARE: Kind = kind(
    b"",
    "letters without a name",
    "A record begins with a line of > and a name: (echo '>NAME'; cat FILE) >NEW.fa puts one there.",
);

/// What the text before the first record may be.
pub fn of(text: &[u8]) -> Option<&'static Kind> {
    let first = text.split(|b| b"\r\n".contains(b)).next().unwrap_or(text);
    if text
        .get(257..)
        .is_some_and(|rest| rest.starts_with(TAR.begins))
    {
        return Some(&TAR);
    }
    if !first.is_empty() && first.iter().all(|b| b"ACGTNacgtn".contains(b)) {
        return Some(&BARE);
    }
    KINDS.iter().find(|kind| text.starts_with(kind.begins))
}
