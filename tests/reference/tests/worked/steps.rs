//! X 1,000, t 100.

use reference::random::Record;
use reference::{Book, End};

use crate::{book, columns, step, FED_AND_OPEN, WALL};

#[test]
fn discharges_are_cut_at_either_side() {
    let fed = |discharge| End {
        kind: 2,
        depth: 100_000,
        discharge,
        ..WALL
    };
    let mut r = Record {
        columns: columns(&[(0, 0, 0, 0, 0); 2], &[0; 3]),
        outlets: vec![],
        x: 1_000,
        ends: [fed(800_000_000), fed(-800_000_000)],
        book: Book::default(),
    };
    assert_eq!(step(&mut r, 100).refusal, 0);
    assert_eq!(r.columns.depth, [80_000, 80_000]);
    assert_eq!(r.columns.discharge, [640_000_000, -640_000_000]);
}

/// The left end is fed, the right one open; base depths 300,000 and 100,000.
fn carrying(right_depth: u64, carried: [i64; 3]) -> Record {
    let cells = [
        (0, 310_000, 60_000_000, 900_001, 300_000),
        (20_000, right_depth, 20_000_000, 500_003, 100_000),
    ];
    Record {
        columns: columns(&cells, &carried),
        outlets: vec![],
        x: 1_000,
        ends: FED_AND_OPEN,
        book: Book::default(),
    }
}

#[test]
fn a_step_that_keeps_the_sums() {
    let mut r = carrying(60_000, [68_002, 58_002, 98_002]);
    let answer = step(&mut r, 100);
    assert_eq!((answer.refusal, answer.settled), (0, false));
    let cells = [
        (0, 303_132, 86_526_997, 900_001, 300_000),
        (20_000, 75_322, 44_774_406, 500_003, 100_000),
    ];
    assert_eq!(r.columns, columns(&cells, &[78_454, 75_322, 100_000]));
    assert_eq!(r.book, book([10_452, 0, 0, 0], [0, 1_998, 0, 0]));
}

/// After so much nutrient came in at the left.
fn settling_after(nutrient: u64) -> Record {
    let mut r = carrying(125_000, [133_001, 123_001, 98_001]);
    r.book.left.nutrient_in = nutrient;
    r
}

#[test]
fn nutrient_of_a_settling_inside_a_step_counts() {
    let totals = [999_999_999_999_068_993, 999_999_999_999_068_994];
    let found = totals.map(|total| step(&mut settling_after(total), 100).refusal);
    assert_eq!(found, [0, 13]);
}

#[test]
fn a_step_that_settles_first() {
    let mut r = settling_after(0);
    let answer = step(&mut r, 100);
    assert_eq!((answer.refusal, answer.settled), (0, true));
    let cells = [
        (0, 305_844, 84_131_853, 1_462_005, 310_000),
        (20_000, 137_608, 41_609_377, 378_999, 125_000),
    ];
    assert_eq!(r.columns, columns(&cells, &[10_452, 14_608, 2_000]));
    assert_eq!(
        r.book,
        book([10_452, 0, 931_007, 0], [0, 2_000, 0, 490_007])
    );
}
