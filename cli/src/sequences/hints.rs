//! What can be done with a file that is refused. None of it changes what is.

use super::command::Names;
use super::{foreign, lines, look, refused};
use crate::counted::{grouped, of as count};
use library::Refusal;

/// Bytes that stand in files of labs and are no letters.
struct Kind {
    bytes: &'static [u8],
    /// What one of them is, and what stands behind their number.
    one: &'static str,
    more: &'static str,
    /// What can be done, with `FILE` and `NEW.fa` for the names in a command.
    hint: &'static str,
}

/// Letters that stand for several bases.
const SEVERAL: Kind = Kind {
    // X is written for masked letters.
    bytes: b"RYSWKMBDHVNXryswkmbdhvnx",
    one: "letter",
    more: " for several bases, such as N",
    hint: "Leave such records out, or cut them there: sequences are of A, C, G and T alone, and only motifs may have others (--mixed).",
};

const LOWER: Kind = Kind {
    bytes: lines::LOWER,
    one: "lower-case letter",
    more: "",
    hint: "--upper takes them as upper-case ones.",
};

/// Letters that proteins have, and DNA never.
const PROTEIN: Kind = Kind {
    bytes: b"EFILPQZJOefilpqzjo",
    one: "letter",
    more: " that no DNA has",
    hint: "This looks like a protein: a search takes DNA, of A, C, G and T.",
};

/// The kinds. A byte is of one alone.
const KINDS: [Kind; 10] = [
    LOWER,
    SEVERAL,
    Kind {
        bytes: b"Uu",
        one: "letter",
        more: " U, of RNA",
        hint: "sed '/^>/!y/Uu/Tt/' FILE >NEW.fa writes T for it.",
    },
    Kind {
        bytes: b"-.",
        one: "gap",
        more: " of an alignment",
        hint: "sed '/^>/!s/[-.]//g' FILE >NEW.fa leaves them out.",
    },
    Kind {
        bytes: b"*",
        one: "mark",
        more: " of a sequence's end, as in proteins",
        hint: "sed '/^>/!s/[*]//g' FILE >NEW.fa leaves them out; of a protein no search is made.",
    },
    PROTEIN,
    Kind {
        bytes: b"0123456789 \t",
        one: "character",
        more: " of layout (digits, spaces)",
        hint: "sed '/^>/!s/[0-9[:space:]]//g' FILE >NEW.fa leaves them out.",
    },
    Kind {
        bytes: b">",
        one: "mark",
        more: " > within a line",
        hint: "Was a file without a last line end joined with another? awk 1 A.fa B.fa >NEW.fa joins them as they should be.",
    },
    Kind {
        bytes: b"\r",
        one: "line end",
        more: " of byte 13 alone",
        hint: look::CONVERT,
    },
    Kind {
        bytes: b"\0",
        one: "byte",
        more: " 0, as in UTF-16",
        hint: "iconv -f UTF-16LE -t UTF-8 FILE >NEW.fa makes plain text of it, if it is that.",
    },
];

/// What is told of a refused file behind the line that says why: at most two
/// lines, with these names in their commands.
pub fn of(file: &[u8], refusal: Refusal, names: &Names) -> Option<String> {
    match refusal.number {
        19 => {
            let text = &file[refused::first_text(file)..];
            let returns = || text.windows(2).any(|pair| pair == b"\r>");
            match foreign::of(text) {
                Some(kind) => Some(names.put(kind.hint)),
                None => returns().then(|| names.put(look::CONVERT)),
            }
        }
        4 => {
            let at = refusal.place as usize;
            let byte = file.get(at)?;
            let kind = KINDS.iter().find(|kind| kind.bytes.contains(byte))?;
            let is = |other: &Kind| kind.bytes == other.bytes;
            if is(&LOWER) {
                let hint = format!("{} {}", kind.counted(file), kind.hint);
                // These would be refused next.
                return Some(match SEVERAL.found(file).0 {
                    0 => hint,
                    _ => format!("{hint}\n{}", SEVERAL.counted(file)),
                });
            }
            // Most letters that stand for several bases are a protein's too.
            let protein = is(&SEVERAL) && PROTEIN.found(file).0 > 0;
            let kind = if protein { &PROTEIN } else { kind };
            let hint = names.put(kind.hint);
            Some(format!("{}\n{hint}", kind.told(file, at)))
        }
        _ => None,
    }
}

impl Kind {
    /// How many of them the records have, in how many of how many records.
    fn found(&self, file: &[u8]) -> (u64, u64, u64) {
        let (mut found, mut holding, mut records, mut last) = (0, 0, 0, 0);
        for (_, line) in lines::all(file) {
            if lines::is_header(line) {
                records += 1;
                continue;
            }
            let here = line.iter().filter(|b| self.bytes.contains(b)).count() as u64;
            if here > 0 && last != records {
                holding += 1;
                last = records;
            }
            found += here;
        }
        (found, holding, records)
    }

    /// Their number, in words.
    fn counted(&self, file: &[u8]) -> String {
        let (found, holding, records) = self.found(file);
        format!(
            "The file has {}{}, in {}.",
            count(found, self.one),
            self.more,
            match records {
                1 => "its one record".to_string(),
                _ => format!("{} of its {}", grouped(holding), count(records, "record")),
            }
        )
    }

    /// The same, with the record of the byte that is refused.
    fn told(&self, file: &[u8], at: usize) -> String {
        let before = lines::all(file).take_while(|(start, _)| *start <= at);
        let headers = before.filter(|(_, line)| lines::is_header(line));
        let (number, name) = headers.fold((0, &b""[..]), |(number, _), (_, line)| {
            (number + 1, lines::name(line))
        });
        let name = match name {
            b"" => String::new(),
            _ => format!(" ({})", lines::told(name)),
        };
        let number = grouped(number);
        format!("It is in record {number}{name}. {}", self.counted(file))
    }
}

#[cfg(test)]
mod tests {
    use super::KINDS;

    #[test]
    fn a_byte_is_of_one_kind_and_no_letter_is() {
        for byte in 0..=u8::MAX {
            let kinds = KINDS.iter().filter(|kind| kind.bytes.contains(&byte));
            let most = u64::from(!b"ACGT\n".contains(&byte));
            assert!(kinds.count() as u64 <= most, "byte {byte}");
        }
    }
}
