//! Allowances: which are too many in the mixed profile; and that the exact one
//! does not look at them.

mod common;

use common::*;
use second::{leg, recover, Answer, Profile, Search};

/// "Exact matching": what the template says of allowances makes no difference,
/// and a search that was begun or restored has none.
#[test]
fn the_exact_profile_does_not_look_at_allowances() {
    let lent = e();
    let plain = lent.begin(&e_template(), 2).unwrap();
    let bytes = save_of(&lent, &plain);
    for allowances in [[0, 1], [1, 1], [2, 0], [255, 256], [65_535, 65_535]] {
        let mut with = e_template();
        assert_eq!(with.profile, Profile::Exact);
        for (component, allowance) in with.components.iter_mut().zip(allowances) {
            component.allowance = allowance;
        }
        assert_eq!(lent.begin(&with, 2), Ok(plain.clone()));
        let search = Search {
            template: with.clone(),
            ..plain.clone()
        };
        assert_eq!(save_of(&lent, &search), bytes);
        assert_eq!(restore_of(&lent, &bytes), Ok(plain.clone()));
        // A leg hands back the template as it was given.
        let (answer, rows) = leg_of(&lent, &search, 99, 5);
        assert_eq!((answer.answer, answer.steps), (Answer::Ended, 20));
        assert_eq!(rows, [(2, 2, 3), (6, 2, 2), (11, 2, 3)]);
        assert_eq!(answer.search.template, with);
        let mut out = [0; 9];
        let told = recover(&lent.letters, &lent.lengths, &with, 2, 0, &mut out);
        assert_eq!(told.map(|told| told.length), Ok(3));
        // The other refusals come as they did.
        let mut refused = search.clone();
        refused.place = place(2, 16);
        let (none, nor, none_either) = (&mut [], &mut [], &mut []);
        let told = leg(
            &lent.letters,
            &lent.lengths,
            &refused,
            9,
            none,
            nor,
            none_either,
        );
        assert_eq!(told.answer, Answer::Refused(refusal(23, 3)));
        assert_eq!(told.search, refused);
    }
}

/// What a mixed search has past its length is refused, in each component; and
/// an allowance as long as the component is not.
#[test]
fn allowances_above_the_length() {
    let lent = e();
    for at in 0..6 {
        for (allowance, told) in [
            (0, None),
            (2, None),
            (3, Some(24)),
            (255, Some(24)),
            (65_535, Some(24)),
        ] {
            let mut parts = [(2, 1, 0, 0); 6];
            parts[at].1 = allowance;
            let begun = lent.begin(&mixed(&parts), 1);
            assert_eq!(
                begun.as_ref().err().map(|r| (r.number, r.place)),
                told.map(|n| (n, 0))
            );
            if let Ok(search) = begun {
                assert_eq!(search.template, mixed(&parts));
                assert_eq!(restore_of(&lent, &save_of(&lent, &search)), Ok(search));
            }
            let out = &mut [];
            let found = recover(&lent.letters, &lent.lengths, &mixed(&parts), 0, 0, out);
            assert_eq!(
                found.err().map(|r| (r.number, r.place)),
                told.map(|n| (n, 0))
            );
        }
    }
}
