//! "Numbers a caller may get back."

/// "A refused new search or restore gives no search, only number and place."
#[derive(Clone, Copy, Debug, PartialEq, Eq)]
pub struct Refusal {
    /// The number in the paper's table, 1 to 18, or in a request, 19 to 24.
    pub number: u8,
    /// The place told: an offset, a component's number, a line number, a
    /// record's number, or 0.
    pub place: u64,
}

impl Refusal {
    /// "number of sequences"
    pub const NUMBER_OF_SEQUENCES: u8 = 1;
    /// "letter buffer above 65,536 bytes"
    pub const LETTER_BUFFER: u8 = 2;
    /// "lengths do not add up to the buffer"
    pub const LENGTHS: u8 = 3;
    /// "byte that is no letter"
    pub const NO_LETTER: u8 = 4;
    /// "number of components"
    pub const NUMBER_OF_COMPONENTS: u8 = 5;
    /// "component length"; in a join "a head outside 1 to 12"
    pub const COMPONENT_LENGTH: u8 = 6;
    /// "K above 32"; in the mixed profile it "reads 16 here"
    pub const LETTERS_IN_ALL: u8 = 7;
    /// "gap range"
    pub const GAP_RANGE: u8 = 8;
    /// "quorum"
    pub const QUORUM: u8 = 9;
    /// "saved bytes fewer than 16, record count below 2, or length not 16
    /// times the count"
    pub const SAVED_LENGTH: u8 = 10;
    /// "11 stays for a wrong kind or component number, and now tells the
    /// record's number from 0."
    pub const RECORD: u8 = 11;
    /// "sequence or letter count differs from the lent ones"
    pub const COUNTS_DIFFER: u8 = 12;
    /// "place is neither a candidate of this search nor the ended place"
    pub const NO_CANDIDATE: u8 = 13;
    /// "motif number not below 4^K"; in the mixed profile "the place rule and
    /// 14 read 16 for 4", and "a digit of 14 or 15, or a letter over the
    /// allowance, is 14 in recovery and 23 in a place"
    pub const MOTIF_NUMBER: u8 = 14;
    /// "first row above the list's length"
    pub const FIRST_ROW: u8 = 15;
    /// "join list not strictly rising, or a position outside 1 to 65,536"
    pub const JOIN_LIST: u8 = 16;
    /// "save buffer shorter than the save, or join table shorter than the
    /// first list"
    pub const BUFFER: u8 = 17;
    /// "text line (program only)"
    pub const TEXT_LINE: u8 = 18;
    /// "text before the first `>`"
    pub const TEXT_BEFORE: u8 = 19;
    /// "no room for the next record"
    pub const NO_ROOM: u8 = 20;
    /// "a byte that must be 0 is not"; "the size record's byte 12 is 0 or 1
    /// for the profile, else 21"
    pub const UNNAMED_BYTE: u8 = 21;
    /// "K is not the sum"
    pub const NOT_THE_SUM: u8 = 22;
    /// "the place breaks its rule"
    pub const PLACE_RULE: u8 = 23;
    /// "allowance above the length"
    pub const ALLOWANCE: u8 = 24;

    /// "A refusal for which no place is named tells 0."
    pub fn plain(number: u8) -> Refusal {
        Refusal { number, place: 0 }
    }

    /// A refusal with the place told.
    pub fn at(number: u8, place: u64) -> Refusal {
        Refusal { number, place }
    }
}
