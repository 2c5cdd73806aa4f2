//! X 1,000, t 100.

use reference::outlet::Outlet;
use reference::random::Record;
use reference::Book;

use crate::{book, columns, step, FED_AND_OPEN};

/// Wants of 60,000, 0 and 90,000 at cell 1, with one of 1,000 at cell 0 between them; the first has had `water` before.
fn lending(water: u64) -> Record {
    let cells = [
        (0, 310_000, 60_000_000, 900_001, 310_000),
        (20_000, 125_000, 20_000_000, 500_003, 125_000),
    ];
    let wants = [(1, 60_000), (0, 1_000), (1, 0), (1, 90_000)];
    let mut outlets = wants.map(|(cell, want)| Outlet::new(cell, want));
    outlets[0].water = water;
    Record {
        columns: columns(&cells, &[0; 3]),
        outlets: outlets.to_vec(),
        x: 1_000,
        ends: FED_AND_OPEN,
        book: Book::default(),
    }
}

/// Drawn water, total of water and total of nutrient of each outlet.
fn amounts(r: &Record) -> Vec<[u64; 3]> {
    let of = |o: &Outlet| [o.drawn, o.water, o.nutrient];
    r.outlets.iter().map(of).collect()
}

#[test]
fn two_steps_with_outlets() {
    let mut r = lending(0);
    let answer = step(&mut r, 100);
    assert_eq!((answer.refusal, answer.settled), (0, false));
    let cells = [
        (0, 304_844, 84_131_853, 900_001, 310_000),
        (20_000, 21_206, 41_609_377, 500_003, 125_000),
    ];
    assert_eq!(r.columns, columns(&cells, &[10_452, 14_608, 2_000]));
    assert_eq!(
        amounts(&r),
        [
            [46_561, 46_561, 0],
            [1_000, 1_000, 0],
            [0; 3],
            [69_841, 69_841, 0]
        ]
    );
    assert_eq!(r.book, book([10_452, 0, 0, 0], [0, 2_000, 0, 0]));

    let answer = step(&mut r, 100);
    assert_eq!((answer.refusal, answer.settled), (0, true));
    let cells = [
        (0, 297_015, 106_191_016, 927_852, 304_844),
        (20_000, 18_756, 62_260_539, 68_803, 21_206),
    ];
    assert_eq!(r.columns, columns(&cells, &[11_927, 18_756, 4_160]));
    assert_eq!(
        amounts(&r),
        [
            [6_819, 53_380, 186_245],
            [1_000, 2_000, 2_903],
            [0; 3],
            [10_227, 80_068, 279_365]
        ]
    );
    assert_eq!(r.book, book([22_379, 0, 73_164, 0], [0, 6_160, 0, 8_000]));
}

#[test]
fn what_was_drawn_and_is_drawn_fill_the_base() {
    let second = |want| {
        let mut r = lending(0);
        step(&mut r, 100);
        r.outlets[0].want = want;
        r.outlets[3].want = 0;
        let settled = step(&mut r, 100).settled;
        (settled, amounts(&r))
    };
    let (settled, left) = second(2_438);
    assert!(!settled);
    assert_eq!(
        left,
        [
            [48_999, 48_999, 0],
            [2_000, 2_000, 0],
            [0; 3],
            [69_841, 69_841, 0]
        ]
    );
    assert!(second(2_439).0);
}

#[test]
fn what_an_outlet_draws_counts_for_13() {
    let refused = |water| step(&mut lending(water), 100).refusal;
    assert_eq!(refused(1_000_000_000_000_000_000 - 46_561), 0);
    assert_eq!(refused(1_000_000_000_000_000_000 - 46_560), 13);
}
