//! Sums of bytes by which damage shows. They guard against accidents, not
//! against someone who wants to deceive. The one here, FNV-1a of 64 bits, takes
//! a byte at a time: it is that of the sequences in a table's last line, and of
//! the jobs of layout 1. `Words` is that of the table there, and of the jobs
//! since.

mod words;

use std::fmt;
pub use words::Words;

/// A sum that grows with the bytes.
#[derive(Clone, Copy, Debug, PartialEq, Eq)]
pub struct Sum(pub u64);

impl Sum {
    /// The sum of no bytes.
    pub const NONE: Sum = Sum(0xcbf2_9ce4_8422_2325);

    /// The sum of the bytes so far and these.
    pub fn and(self, bytes: &[u8]) -> Sum {
        Sum(bytes.iter().fold(self.0, |sum, byte| {
            (sum ^ u64::from(*byte)).wrapping_mul(0x0000_0100_0000_01b3)
        }))
    }

    /// The sum of bytes.
    pub fn of(bytes: &[u8]) -> Sum {
        Sum::NONE.and(bytes)
    }

    /// Reads a sum as it is written: sixteen digits.
    pub fn read(text: &str) -> Option<Sum> {
        let sum = u64::from_str_radix(text, 16).ok().map(Sum)?;
        (sum.to_string() == text).then_some(sum)
    }
}

impl fmt::Display for Sum {
    fn fmt(&self, to: &mut fmt::Formatter) -> fmt::Result {
        write!(to, "{:016x}", self.0)
    }
}

#[cfg(test)]
mod tests {
    use super::Sum;

    #[test]
    fn sums_are_those_of_fnv_1a() {
        assert_eq!(Sum::of(b"").0, 0xcbf2_9ce4_8422_2325);
        assert_eq!(Sum::of(b"a").0, 0xaf63_dc4c_8601_ec8c);
        assert_eq!(Sum::of(b"foobar").0, 0x8594_4171_f739_67e8);
        assert_eq!(Sum::of(b"foo").and(b"bar"), Sum::of(b"foobar"));
        assert_eq!(Sum::of(b"foobar").to_string(), "85944171f73967e8");
        assert_eq!(Sum::read("85944171f73967e8"), Some(Sum::of(b"foobar")));
        assert_eq!(Sum::read("85944171F73967e8"), None);
    }
}
