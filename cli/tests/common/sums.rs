//! The sums of a table's last line, worked out by code of the tests' own.

/// The sum of sequences, as docs/OPERATORS.md tells how it is worked out: FNV-1a
/// of 64 bits, over the letters of each and a line end behind them.
pub fn sequences(letters: &[u8], lengths: &[u32]) -> u64 {
    let mut letters = letters.iter();
    let mut sum: u128 = 14_695_981_039_346_656_037;
    for length in lengths {
        let sequence = letters.by_ref().take(*length as usize);
        for byte in sequence.chain(b"\n") {
            sum = (sum ^ u128::from(*byte)) * 1_099_511_628_211 % (1 << 64);
        }
    }
    sum as u64
}

/// The first four primes of XXH64.
const PRIMES: [u64; 4] = [
    11_400_714_785_074_694_791,
    14_029_467_366_897_019_727,
    1_609_587_929_392_839_161,
    9_650_029_242_287_828_579,
];

/// The sum of a table's lines: words of eight bytes, the lowest first, with
/// zeros behind the last, go to four lanes in turn; then the number of bytes is
/// folded with each lane, and mixed.
pub fn words(bytes: &[u8]) -> u64 {
    let [one, two, three, four] = PRIMES;
    let mut lanes = PRIMES;
    for at in 0..bytes.len().div_ceil(32) * 4 {
        let byte = |i: usize| u64::from(bytes.get(8 * at + i).copied().unwrap_or(0));
        let word = (0..8).fold(0, |word, i| word | byte(i) << (8 * i));
        let sum = lanes[at % 4].wrapping_add(word.wrapping_mul(two));
        lanes[at % 4] = sum.rotate_left(31).wrapping_mul(one);
    }
    let fold = |sum: u64, lane: u64| {
        let turned = (sum ^ lane).rotate_left(27);
        turned.wrapping_mul(one).wrapping_add(four)
    };
    let sum = lanes.into_iter().fold(bytes.len() as u64, fold);
    let sum = (sum ^ (sum >> 33)).wrapping_mul(two);
    let sum = (sum ^ (sum >> 29)).wrapping_mul(three);
    sum ^ (sum >> 32)
}
