//! The linked library on the paper's set E: each of the seven calls as the
//! header declares it, with the paper's numbers, a search in both profiles, and
//! refused calls, which leave every buffer as it was.

use tulfasheq::{begin, join, leg, recover, restore, save};
use tulfasheq::{Leg, Reader, Recovered, Stop, Template};

mod linked;

use linked::*;

/// The whole search of E: what it lists, and its bytes then. At quorum 2 that is
/// p3; in the mixed profile at quorum 3, AK, AB and AD.
#[test]
fn p3_a_search_of_e() {
    let exact = ([2, 6, 11, 9], [2, 2, 2, 9], [3, 2, 3, 9]);
    let mixed = ([6, 10, 11, 9], [3, 3, 3, 9], [4, 5, 4, 9]);
    for (template, quorum, steps, listed) in [(EXACT, 2, 20, exact), (MIXED, 3, 32, mixed)] {
        let mut saved = begun(template, quorum);
        let (mut motifs, mut supports, mut weights) = ([9; 4], [9; 4], [9; 4]);
        let (m, s, w) = (&mut motifs[..], &mut supports[..], &mut weights[..]);
        let told = leg(LETTERS, LENGTHS, &mut saved, 99, m, s, w).unwrap();
        let (stop, rows) = (Stop::Ended, 3);
        assert_eq!(told, Leg { stop, steps, rows });
        assert_eq!((motifs, supports, weights), listed);
        let told = restore(LETTERS, LENGTHS, &saved, &mut [], &mut []);
        assert_eq!(told, Ok(at(template, quorum, 0, 0)));
        let ended = [3, 0, 0, 0, 0, 0, 0, 0, 0, 0, 0, 0, 0, 0, 0, 0];
        assert_eq!(saved[..48], begun(template, quorum)[..48]);
        assert_eq!(saved[48..], ended);
    }
}

#[test]
fn p4_nothing_in_twelve_steps() {
    let mut saved = begun(EXACT, 3);
    let told = leg(LETTERS, LENGTHS, &mut saved, 99, &mut [], &mut [], &mut []).unwrap();
    let (stop, steps, rows) = (Stop::Ended, 12, 0);
    assert_eq!(told, Leg { stop, steps, rows });
}

#[test]
fn legs_stop_where_the_budget_or_the_room_ends() {
    let mut saved = begun(EXACT, 2);
    let mut motifs = [0; 1];
    let mut next = |budget, room: usize| {
        let (mut supports, mut weights) = ([0; 1], [0; 1]);
        let (m, s, w) = (&mut motifs[..room], &mut supports[..], &mut weights[..]);
        leg(LETTERS, LENGTHS, &mut saved, budget, m, s, w).unwrap()
    };
    let told = |stop, steps, rows| Leg { stop, steps, rows };
    assert_eq!(next(0, 1), told(Stop::Spent, 0, 0));
    // A, AA, AC; AG is the first motif.
    assert_eq!(next(99, 0), told(Stop::Full, 3, 0));
    assert_eq!(next(1, 1), told(Stop::Spent, 1, 1));
    assert_eq!(next(99, 1), told(Stop::Full, 10, 1));
    assert_eq!(next(99, 1), told(Stop::Ended, 6, 1));
    assert_eq!(next(99, 1), told(Stop::Ended, 0, 0));
    assert_eq!(motifs, [11]);
}

#[test]
fn p5_the_occurrences_of_ag() {
    let mut out = [7; 11];
    let told = recover(LETTERS, LENGTHS, EXACT, 2, 0, &mut out).unwrap();
    assert_eq!(told, Recovered { rows: 3, length: 3 });
    assert_eq!(out, [1, 1, 3, 2, 2, 3, 2, 2, 4, 7, 7]);
    let mut page = [7; 5];
    let told = recover(LETTERS, LENGTHS, EXACT, 2, 1, &mut page).unwrap();
    assert_eq!(told, Recovered { rows: 1, length: 3 });
    assert_eq!(page, [2, 2, 3, 7, 7]);
    let told = recover(LETTERS, LENGTHS, EXACT, 2, 3, &mut page).unwrap();
    assert_eq!(told, Recovered { rows: 0, length: 3 });
}

#[test]
fn p6_the_occurrences_of_aa() {
    let mut out = [0; 9];
    let told = recover(b"AAA", &[3], EXACT, 0, 0, &mut out).unwrap();
    assert_eq!(told, Recovered { rows: 3, length: 3 });
    assert_eq!(out, [1, 1, 2, 1, 1, 3, 1, 2, 3]);

    let mut saved = [0; 64];
    assert_eq!(begin(b"AAA", &[3], EXACT, 1, &mut saved), Ok(64));
    let (mut motifs, mut supports, mut weights) = ([9; 1], [9; 1], [9; 1]);
    let (m, s, w) = (&mut motifs[..], &mut supports[..], &mut weights[..]);
    let told = leg(b"AAA", &[3], &mut saved, 99, m, s, w).unwrap();
    let (stop, steps, rows) = (Stop::Ended, 8, 1);
    assert_eq!(told, Leg { stop, steps, rows });
    assert_eq!((motifs, supports, weights), ([0], [1], [3]));
}

#[test]
fn p7_joins() {
    let mut out = [7; 3];
    assert_eq!(join(&[1, 4], &[3, 5], 1, 0, 1, &mut out), Ok(2));
    assert_eq!(out, [1, 4, 7]);
    assert_eq!(join(&[1, 4], &[3, 5], 1, 0, 0, &mut out), Ok(1));
    assert_eq!(out, [4, 4, 7]);
}

/// E as a FASTA file: two lines of letters, a name that a tab ends, a line end
/// of 13 and 10, an empty line, and no end of the last line.
const FILE: &[u8] = b"\n>e1 first\nACG\nTA\n>\tsecond\r\nCAGGT\r\n\n>e3\nAT";

#[test]
fn a_fasta_file_of_e() {
    let mut reader = Reader::new(FILE);
    let (mut letters, mut lengths) = ([b'-'; 14], [7; 4]);
    let (mut used, mut count) = (0, 0);
    let mut next = |at: u64, name: Option<&[u8]>, letters_used: u64, rows: u64| {
        let found = reader.next(&mut letters, &mut used, &mut lengths, &mut count);
        assert_eq!(found, Ok(name));
        assert_eq!((reader.at(), used, count), (at, letters_used, rows));
        found.unwrap().map(<[u8]>::as_ptr)
    };
    assert_eq!(next(18, Some(b"e1"), 5, 1), Some(FILE[2..].as_ptr()));
    assert_eq!(next(36, Some(b""), 10, 2), Some(FILE[19..].as_ptr()));
    assert_eq!(next(42, Some(b"e3"), 12, 3), Some(FILE[37..].as_ptr()));
    assert_eq!(next(42, None, 12, 3), None);
    assert_eq!(letters, *b"ACGTACAGGTAT--");
    assert_eq!(lengths, [5, 5, 2, 7]);
    let mut saved = [0; 64];
    let size = begin(&letters[..12], &lengths[..3], EXACT, 2, &mut saved);
    assert_eq!(size, Ok(64));
    assert_eq!(saved[..], begun(EXACT, 2));
}

/// What a save is, what it tells, and that what was told makes the same save.
#[test]
fn p9_a_save() {
    for (template, quorum, number) in [(EXACT, 2, 3), (MIXED, 3, 7)] {
        let saved = walked(template);
        let mixed = template.profile as u8;
        let size = [
            1,
            4,
            quorum as u8,
            0,
            3,
            0,
            2,
            0,
            12,
            0,
            0,
            0,
            mixed,
            0,
            0,
            0,
        ];
        let first = [2, 1, 1, 0, 0, 0, 0, 0, 0, 0, 0, 0, 0, 0, 0, 0];
        let second = [2, 2, 1, mixed, 0, 0, 1, 0, 0, 0, 0, 0, 0, 0, 0, 0];
        let place = [3, 2, 0, 0, 0, 0, 0, 0, number, 0, 0, 0, 0, 0, 0, 0];
        assert_eq!(saved, [size, first, second, place].concat());

        let (mut shape, mut allowances) = ([7; 20], [7; 8]);
        let told = restore(LETTERS, LENGTHS, &saved, &mut shape, &mut allowances);
        let search = at(template, quorum, 2, number.into());
        assert_eq!(told, Ok(search));
        assert_eq!(shape[..6], SHAPE);
        assert_eq!(shape[6..], [0, 0, 0, 0, 0, 0, 0, 0, 0, 0, 0, 0, 7, 7]);
        assert_eq!(allowances, [0, mixed.into(), 0, 0, 0, 0, 7, 7]);
        // Arrays with less room get what fits.
        for room in 0..=6 {
            let (mut less, mut fewer) = ([7; 6], [7; 6]);
            let (s, a) = (&mut less[..room], &mut fewer[..room]);
            assert_eq!(restore(LETTERS, LENGTHS, &saved, s, a), Ok(search));
            assert_eq!(
                (&less[..room], &fewer[..room]),
                (&shape[..room], &allowances[..room])
            );
            assert!(less[room..]
                .iter()
                .chain(&fewer[room..])
                .all(|number| *number == 7));
        }

        let mut again = [0xEE; 65];
        let size = save(LETTERS, LENGTHS, &search, &shape, &allowances, &mut again);
        assert_eq!(size, Ok(64));
        assert_eq!(again[..64], saved);
        assert_eq!(again[64], 0xEE);
    }
}

#[test]
fn p10_a_save_cut_short() {
    let mut cut = walked(EXACT);
    cut.truncate(63);
    let whole = cut.clone();
    let mut shape = [7; 18];
    let refusal = Err(refused(10, 0));
    assert_eq!(
        restore(LETTERS, LENGTHS, &cut, &mut shape, &mut []),
        refusal
    );
    assert_eq!(shape, [7; 18]);

    let (mut motifs, mut supports, mut weights) = ([7; 4], [7; 4], [7; 4]);
    let (m, s, w) = (&mut motifs[..], &mut supports[..], &mut weights[..]);
    let refusal = Err(refused(10, 0));
    assert_eq!(leg(LETTERS, LENGTHS, &mut cut, 99, m, s, w), refusal);
    assert_eq!((motifs, supports, weights), ([7; 4], [7; 4], [7; 4]));
    assert_eq!(cut, whole);
}

#[test]
fn p11_a_place_that_is_no_candidate() {
    // CA at quorum 3: C is not frequent then.
    let mut out = [7; 64];
    let refusal = Err(refused(13, 0));
    assert_eq!(
        save(LETTERS, LENGTHS, &at(EXACT, 3, 2, 4), &SHAPE, &[], &mut out),
        refusal
    );
    assert_eq!(out, [7; 64]);

    assert_eq!(
        save(LETTERS, LENGTHS, &at(EXACT, 2, 2, 4), &SHAPE, &[], &mut out),
        Ok(64)
    );
    out[2] = 3;
    let mut shape = [7; 18];
    let refusal = Err(refused(13, 0));
    assert_eq!(
        restore(LETTERS, LENGTHS, &out, &mut shape, &mut []),
        refusal
    );
    assert_eq!(shape, [7; 18]);
}

#[test]
fn refused_calls_leave_their_buffers() {
    let mut saved = [7; 64];
    let refusal = begin(b"ACGTACAGGTAN", LENGTHS, EXACT, 2, &mut saved);
    assert_eq!(refusal, Err(refused(4, 11)));
    let refusal = begin(LETTERS, LENGTHS, EXACT, 4, &mut saved);
    assert_eq!(refusal, Err(refused(9, 0)));
    let refusal = begin(LETTERS, LENGTHS, EXACT, 2, &mut saved[..63]);
    assert_eq!(refusal, Err(refused(17, 0)));
    let refusal = save(
        LETTERS,
        LENGTHS,
        &at(EXACT, 2, 1, 0),
        &SHAPE,
        &[],
        &mut saved[..63],
    );
    assert_eq!(refusal, Err(refused(17, 0)));
    assert_eq!(saved, [7; 64]);

    let mut out = [7; 6];
    let wide = [1, 0, 0, 1, 0, 256];
    let template = Template::exact(2, &wide);
    let refusal = recover(LETTERS, LENGTHS, template, 2, 0, &mut out);
    assert_eq!(refusal, Err(refused(8, 2)));
    let refusal = recover(LETTERS, LENGTHS, EXACT, 16, 0, &mut out);
    assert_eq!(refusal, Err(refused(14, 0)));
    let refusal = recover(LETTERS, LENGTHS, EXACT, 2, 4, &mut out);
    assert_eq!(refusal, Err(refused(15, 0)));

    let refusal = join(&[1, 4], &[3, 5], 13, 0, 1, &mut out);
    assert_eq!(refusal, Err(refused(6, 1)));
    let refusal = join(&[4, 1], &[3, 5], 1, 0, 1, &mut out);
    assert_eq!(refusal, Err(refused(16, 0)));
    let refusal = join(&[1, 4], &[3, 5], 1, 0, 1, &mut out[..1]);
    assert_eq!(refusal, Err(refused(17, 0)));
    assert_eq!(out, [7; 6]);
}

#[test]
fn a_shape_that_ends_early_has_nothing_after_its_end() {
    let mut saved = [7; 64];
    let template = Template::exact(2, &SHAPE[..3]);
    let refusal = begin(LETTERS, LENGTHS, template, 2, &mut saved);
    assert_eq!(refusal, Err(refused(6, 2)));
    // N[0,0]N: the last number is left out.
    let template = Template::exact(2, &SHAPE[..5]);
    assert_eq!(begin(LETTERS, LENGTHS, template, 2, &mut saved), Ok(64));
    let mut shape = [7; 6];
    restore(LETTERS, LENGTHS, &saved, &mut shape, &mut []).unwrap();
    assert_eq!(shape, [1, 0, 0, 1, 0, 0]);
}
