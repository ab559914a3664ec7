//! Saves of E that are changed: one of each profile, at a place on its way.

use super::{e, e_template, mixed, restore_of, walked};
use second::Profile;

/// The save of E, quorum 2, after 4 steps, which p9 gives: the place is AT. In
/// the mixed profile, with one mixed letter allowed in the second component and
/// quorum 3, after 8 steps, A, AA, AC, AG, AT, AR, AY, AK: the place is AM.
pub fn saved(profile: Profile) -> Vec<u8> {
    let mut records = [
        [1, 4, 2, 0, 3, 0, 2, 0, 12, 0, 0, 0, 0, 0, 0, 0],
        [2, 1, 1, 0, 0, 0, 0, 0, 0, 0, 0, 0, 0, 0, 0, 0],
        [2, 2, 1, 0, 0, 0, 1, 0, 0, 0, 0, 0, 0, 0, 0, 0],
        [3, 2, 0, 0, 0, 0, 0, 0, 3, 0, 0, 0, 0, 0, 0, 0],
    ]
    .concat();
    let (template, quorum, steps, row) = match profile {
        Profile::Exact => (e_template(), 2, 4, (2, 2, 3)),
        Profile::Mixed => {
            (records[2], records[12], records[35], records[56]) = (3, 1, 1, 7);
            (mixed(&[(1, 0, 0, 0), (1, 1, 0, 1)]), 3, 8, (6, 3, 4))
        }
    };
    let (rows, bytes) = walked(&e(), &template, quorum, steps);
    assert_eq!(rows, [row]);
    assert_eq!(bytes, records);
    bytes
}

/// A refusal's number and place, or none.
pub type Told = Option<(u8, u64)>;

/// What a restore of bytes over E tells.
pub fn told(bytes: &[u8]) -> Told {
    let refused = restore_of(&e(), bytes).err()?;
    Some((refused.number, refused.place))
}

/// What a restore of a profile's save tells with these bytes changed.
pub fn changed(profile: Profile, changes: &[(usize, u8)]) -> Told {
    let mut bytes = saved(profile);
    for (at, value) in changes {
        assert_ne!(bytes[*at], *value, "byte {at} stays as it is");
        bytes[*at] = *value;
    }
    told(&bytes)
}
