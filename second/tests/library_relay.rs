//! The linked library over many calls: the bytes of a search passed on from
//! leg to leg, and a motif's list recovered page by page, each beside the
//! second program; and the rows of a leg beside the lists of their motifs,
//! both the library's. In both profiles.

use second::requests::answer::search;
use second::requests::random::Random;
use second::requests::request::{Set, Value};
use second::{Answer, Profile, Refusal};
use std::ops::Range;
use tulfasheq::{Recovered, Stop, Template};

mod linked;

use linked::{allowances, refused, shape};

/// A random set, a template within the rules, and a quorum: in the exact profile
/// with allowances that it does not look at, and in the mixed one with fewer
/// letters, so that it comes to an end.
fn any_search(profile: Profile, random: &mut Random) -> (Set, Value) {
    let (most, longest, letters) = match profile {
        Profile::Exact => (12, [8, 30, 120], 7),
        Profile::Mixed => (9, [8, 20, 70], 5),
    };
    let (most, longest, alphabet) = (
        random.within(1, most),
        random.pick(&longest),
        random.within(1, 4),
    );
    let set = random.set(most, longest, alphabet);
    let (most, widest) = (random.within(1, letters), random.pick(&[0, 3, 20, 255]));
    let quorum = random
        .within(1, set.lengths.len() as u64)
        .min(random.within(1, 12));
    let value = random.template(most, widest).with_quorum(quorum);
    if profile == Profile::Mixed {
        let most = random.pick(&[1, 1, 2, 12]);
        return (set, random.mixed(value, most));
    }
    if !random.once_in(3) {
        return (set, value);
    }
    let any = random.any() as u16;
    let allowance = random.pick(&[1, 12, 13, 255, 65_535, any]);
    let slots = value.slots.map(|slot| slot.allowing(allowance));
    (set, Value { slots, ..value })
}

fn template<'a>(value: &Value, shape: &'a [u16], allowances: &'a [u16]) -> Template<'a> {
    Template {
        profile: value.profile.number(),
        components: value.count,
        shape,
        allowances,
    }
}

/// Tables with the same contents, lent to both programs.
#[derive(Clone, Debug, PartialEq)]
struct Tables {
    motifs: Vec<u64>,
    supports: Vec<u32>,
    weights: Vec<u64>,
}

impl Tables {
    fn new(random: &mut Random) -> Tables {
        let room = random.pick(&[0, 1, 2, 7, 60]);
        let mut room = || room + random.below(3) as usize;
        let (a, b, c) = (room(), room(), room());
        Tables {
            motifs: random.wide(a),
            supports: random.narrow(b),
            weights: random.wide(c),
        }
    }
}

fn relay(profile: Profile, random: &mut Random) {
    let (set, value) = any_search(profile, random);
    let (letters, lengths) = (&set.letters[..], &set.lengths[..]);
    let (shape, allowances) = (shape(&value), allowances(&value));
    let mut saved = random.bytes(128);
    let mut beside = saved.clone();
    let begun = tulfasheq::begin(
        letters,
        lengths,
        template(&value, &shape, &allowances),
        value.quorum,
        &mut saved,
    );
    let size = begun.expect("a search within the rules");
    let mut there = second::begin(letters, lengths, &search(&value).template, value.quorum)
        .expect("a search within the rules");
    assert_eq!(
        second::save(letters, lengths, &there, &mut beside),
        Ok(size)
    );
    assert_eq!(saved, beside);

    for _ in 0..60 {
        let budget = random.pick(&[0, 1, 2, 5, 17, 100, u64::MAX]);
        let mut tables = Tables::new(random);
        let mut tables_there = tables.clone();
        let (m, s, w) = (
            &mut tables.motifs,
            &mut tables.supports,
            &mut tables.weights,
        );
        let leg = tulfasheq::leg(letters, lengths, &mut saved[..size], budget, m, s, w)
            .expect("the bytes of a search");
        let (m, s, w) = (
            &mut tables_there.motifs,
            &mut tables_there.supports,
            &mut tables_there.weights,
        );
        let leg_there = second::leg(letters, lengths, &there, budget, m, s, w);
        let stop = match leg.stop {
            Stop::Ended => Answer::Ended,
            Stop::Spent => Answer::Spent,
            Stop::Full => Answer::Full,
        };
        let told = (stop, leg.steps, leg.rows);
        assert_eq!(told, (leg_there.answer, leg_there.steps, leg_there.rows));
        assert_eq!(tables, tables_there);
        there = leg_there.search;
        assert_eq!(
            second::save(letters, lengths, &there, &mut beside),
            Ok(size)
        );
        assert_eq!(saved, beside);
        if leg.stop == Stop::Ended && leg.steps == 0 {
            break;
        }
    }
}

/// The number of a random motif: of single letters in the exact profile, and in
/// the mixed one of as many mixed letters as the components allow, or fewer.
fn motif(value: &Value, random: &mut Random) -> u64 {
    let base = value.profile.base();
    let mut number = 0;
    for slot in &value.slots[..value.count.into()] {
        let mut left = slot.allowance;
        for _ in 0..slot.length {
            let mixed = value.profile == Profile::Mixed && left > 0 && random.once_in(2);
            let most = if mixed { 14 } else { 4 };
            let digit = random.below(most);
            left -= u16::from(digit > 3);
            number = number * base + digit;
        }
    }
    number
}

fn pages(profile: Profile, random: &mut Random) {
    let (set, value) = any_search(profile, random);
    let (letters, lengths) = (&set.letters[..], &set.lengths[..]);
    let (shape, allowances) = (shape(&value), allowances(&value));
    let template_there = search(&value).template;
    let motif = motif(&value, random);
    let row = usize::from(value.count) + 1;
    let whole = second::recover(letters, lengths, &template_there, motif, 0, &mut []);
    let length = whole.expect("a motif within the rules").length;
    // The first rows of a long list.
    let mut first = if length > 3_000 {
        length - random.below(3_000)
    } else {
        0
    };
    for _ in 0..200 {
        let room = random.below(40) as usize * row + random.below(row as u64) as usize;
        let mut page = random.narrow(room);
        let mut page_there = page.clone();
        let template = template(&value, &shape, &allowances);
        let told = tulfasheq::recover(letters, lengths, template, motif, first, &mut page)
            .expect("a row of the list");
        let told_there = second::recover(
            letters,
            lengths,
            &template_there,
            motif,
            first,
            &mut page_there,
        )
        .expect("a row of the list");
        assert_eq!(
            (told.rows, told.length),
            (told_there.rows, told_there.length)
        );
        assert_eq!(page, page_there);
        first += told.rows as u64;
        if first == length {
            break;
        }
    }
}

/// Runs a leg and recovers each motif that it lists: the list is as long as
/// the row's weight, a page from there on is empty, and one past it is
/// refused. What the template holds past its components makes no difference.
/// Gives the number of rows.
fn rows_beside_lists(set: &Set, value: &Value, random: &mut Random) -> usize {
    let (letters, lengths) = (&set.letters[..], &set.lengths[..]);
    let (shape, mut allowances) = (shape(value), allowances(value));
    let template = template(value, &shape, &allowances);
    let mut saved = [0; 128];
    let size = tulfasheq::begin(letters, lengths, template, value.quorum, &mut saved)
        .expect("a search within the rules");
    let (mut motifs, mut supports, mut weights) = ([0; 60], [0; 60], [0; 60]);
    let (m, s, w) = (&mut motifs[..], &mut supports[..], &mut weights[..]);
    let leg = tulfasheq::leg(letters, lengths, &mut saved[..size], 2_000, m, s, w)
        .expect("the bytes of a search");

    let mut other = shape.clone();
    for number in other.iter_mut().skip(3 * usize::from(value.count)) {
        *number = random.below(300) as u16;
    }
    for allowance in allowances.iter_mut().skip(value.count.into()) {
        *allowance = random.below(300) as u16;
    }
    let template = self::template(value, &other, &allowances);
    let row = usize::from(value.count) + 1;
    for (motif, length) in motifs.into_iter().zip(weights).take(leg.rows) {
        let recover = |first, out: &mut [u32]| {
            tulfasheq::recover(letters, lengths, template, motif, first, out)
        };
        let room = random.below(5);
        let mut page = random.narrow(room as usize * row);
        let rows = length.min(room) as usize;
        assert_eq!(recover(0, &mut page), Ok(Recovered { rows, length }));

        let left = page.clone();
        let rows = 0;
        assert_eq!(recover(length, &mut page), Ok(Recovered { rows, length }));
        let refusal = refused(Refusal::FIRST_ROW, 0);
        assert_eq!(recover(length + 1, &mut page), Err(refusal));
        assert_eq!(page, left);
    }
    leg.rows
}

fn weights(profile: Profile, random: &mut Random) -> usize {
    let (set, value) = any_search(profile, random);
    rows_beside_lists(&set, &value, random)
}

/// Runs it from one seed after another, over exact and over mixed searches, and
/// names the seed at which it fails. Gives what each run answers, for each
/// profile.
fn from_seeds<T>(
    exact: Range<u64>,
    mixed: Range<u64>,
    what: fn(Profile, &mut Random) -> T,
) -> [Vec<T>; 2] {
    [(Profile::Exact, exact), (Profile::Mixed, mixed)].map(|(profile, seeds)| {
        let run = |seed| {
            let run = || what(profile, &mut Random::new(seed));
            std::panic::catch_unwind(run).unwrap_or_else(|cause| {
                println!("{profile:?}, seed {seed}");
                std::panic::resume_unwind(cause)
            })
        };
        seeds.map(run).collect()
    })
}

#[test]
fn legs_pass_on_their_bytes() {
    from_seeds(1_000..4_000, 11_000..12_000, relay);
}

#[test]
fn pages_laid_end_to_end_are_the_list() {
    from_seeds(4_000..8_000, 14_000..16_000, pages);
}

#[test]
fn weights_are_the_lengths_of_lists() {
    for rows in from_seeds(8_000..10_000, 18_000..19_000, weights) {
        let rows: usize = rows.iter().sum();
        assert!(rows > 10_000, "{rows} rows");
    }
}

#[test]
fn the_largest_weight_is_the_length_of_its_list() {
    let set = Set::of(&[vec![b'A'; 65_536]]);
    let random = &mut Random::new(10_000);
    let value = Value::widest().with_quorum(1);
    assert_eq!(rows_beside_lists(&set, &value, random), 1);
    // A, and the six mixed letters that stand for it.
    let value = value.mixed(&[0, 0, 0, 0, 0, 1]);
    assert_eq!(rows_beside_lists(&set, &value, random), 7);
}
