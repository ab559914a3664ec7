//! Records of a save that change places, that are more or fewer, and of which
//! the lengths or the letters in all are wrong.

mod common;

use common::saves::{changed, saved, told, Told};
use common::*;
use second::Profile;

#[test]
fn records_that_change_places() {
    let right = saved(Profile::Exact);
    let parts: Vec<&[u8]> = right.chunks(16).collect();
    let [size, first, second, place] = parts[..] else {
        panic!("four records")
    };
    assert_eq!(told(&[size, second, first, place].concat()), Some((11, 1)));
    assert_eq!(told(&[size, first, place, second].concat()), Some((11, 2)));
    assert_eq!(told(&[size, first, second, second].concat()), Some((11, 3)));
    assert_eq!(told(&[size, first, first, place].concat()), Some((11, 2)));
    assert_eq!(told(&[size, size, second, place].concat()), Some((11, 1)));
    // A component record has 1 where the size record has the record count.
    assert_eq!(told(&[first, size, second, place].concat()), Some((10, 0)));
}

/// Changes one byte after another, and says what each change brings a restore
/// over E to tell.
fn tell(bytes: &mut [u8], changes: &[(usize, u8, Told)]) {
    for (at, value, expected) in changes {
        bytes[*at] = *value;
        assert_eq!(told(bytes), *expected, "{value} in byte {at}");
    }
}

#[test]
fn a_record_more_or_fewer() {
    let right = saved(Profile::Exact);
    let mut more = right.clone();
    more.splice(48..48, [2, 3, 1].into_iter().chain([0; 13]));
    let changes = [
        (1, 4, Some((10, 0))),
        (1, 5, Some((22, 0))),
        (6, 3, None),
        (65, 4, Some((23, 4))),
        (66, 1, Some((21, 4))),
        (64, 2, Some((11, 4))),
        (49, 4, Some((11, 3))),
    ];
    tell(&mut more, &changes);

    let mut fewer = right.clone();
    fewer.drain(32..48);
    let changes = [
        (1, 4, Some((10, 0))),
        (1, 3, Some((22, 0))),
        (6, 1, Some((23, 2))),
    ];
    tell(&mut fewer, &changes);
    fewer.drain(16..32);
    tell(&mut fewer, &[(1, 2, Some((5, 0)))]);
}

#[test]
fn record_counts() {
    let lent = e();
    for count in 0..=255u8 {
        for records in [0, 1, 2, count as usize] {
            let mut bytes = vec![0; 16 * records];
            if let Some(byte) = bytes.get_mut(1) {
                *byte = count;
            }
            let told = if records < 1 || count < 2 || records != count as usize {
                10
            } else if (3..=8).contains(&count) {
                11
            } else {
                5
            };
            assert_eq!(restore_of(&lent, &bytes), Err(refusal(told, 0)));
        }
    }
}

#[test]
fn wrong_lengths_and_k_in_a_save() {
    let lent = e();
    // Lengths 13 and 1 with K 14; then 12, 12, 12 with K 36.
    let changes = [(18, 13), (6, 14)];
    assert_eq!(changed(Profile::Exact, &changes), Some((6, 1)));
    let three = template(&[(12, 0, 0), (12, 0, 0), (8, 0, 0)]);
    let mut bytes = save_of(&lent, &lent.begin(&three, 2).unwrap());
    tell(
        &mut bytes,
        &[(50, 12, Some((22, 0))), (6, 36, Some((7, 0)))],
    );
    // A place beyond 32 letters keeps its rule there.
    bytes[72..80].fill(255);
    tell(
        &mut bytes,
        &[(65, 36, Some((7, 0))), (65, 37, Some((23, 4)))],
    );
    // A sum that does not fit one byte: both bytes of K count.
    let mut long = saved(Profile::Exact);
    long[18] = 255;
    let changes = [
        (34, 255, Some((22, 0))),
        (6, 254, Some((22, 0))),
        (7, 1, Some((6, 1))),
        (49, 255, Some((6, 1))),
        (49, 0, Some((23, 3))),
    ];
    tell(&mut long, &changes);
}
