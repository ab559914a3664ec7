//! The FASTA reader: a file, and the cursor that the library's calls move on.

use super::{answer, declared, Refusal, UNTOLD};

/// A reader over a lent file.
#[derive(Clone, Copy, Debug)]
pub struct Reader<'a> {
    file: &'a [u8],
    at: u64,
}

impl<'a> Reader<'a> {
    /// A reader at a file's first byte.
    pub fn new(file: &'a [u8]) -> Reader<'a> {
        Reader::from(file, 0)
    }

    /// A reader at any cursor, also past the file.
    pub fn from(file: &'a [u8], at: u64) -> Reader<'a> {
        Reader { file, at }
    }

    /// Where it stands: an offset in the file.
    pub fn at(&self) -> u64 {
        self.at
    }

    /// The next record's name, a part of the file; none at the file's end. The
    /// record's letters go to `letters` behind the `used` that it holds, and
    /// their number to `lengths` behind its `count` rows; the reader and both
    /// numbers move on past them. Otherwise nothing is written or moved.
    pub fn next(
        &mut self,
        letters: &mut [u8],
        used: &mut u64,
        lengths: &mut [u32],
        count: &mut u64,
    ) -> Result<Option<&'a [u8]>, Refusal> {
        let before = (self.at, *used, *count);
        let (mut place, mut found, mut start, mut end) = (UNTOLD, UNTOLD, UNTOLD, UNTOLD);
        // SAFETY: each pointer comes with its length from a slice that lives
        // on, and what is written is borrowed for this call alone.
        let number = unsafe {
            declared::tulfasheq_fasta(
                self.file.as_ptr(),
                self.file.len(),
                letters.as_mut_ptr(),
                letters.len(),
                lengths.as_mut_ptr(),
                lengths.len(),
                &mut self.at,
                used,
                count,
                &mut place,
                &mut found,
                &mut start,
                &mut end,
            )
        };
        if found != 1 {
            assert_eq!(
                (self.at, *used, *count),
                before,
                "moved on without a record"
            );
        }
        answer(number, place, &[found, start, end])?;
        match found {
            0 => {
                assert_eq!((start, end), (0, 0), "a name without a record");
                Ok(None)
            }
            1 => Ok(Some(&self.file[start as usize..end as usize])),
            other => panic!("a call that found {other}"),
        }
    }
}
