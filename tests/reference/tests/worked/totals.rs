use reference::random::Record;
use reference::{greatest_step, open, set_ends, write, Columns, End};

use crate::{book, settle, step, WALL};

/// 40,000 and 35,000 of water flow to the right; both ends are open, at concentrations 13 and 11.
#[rustfmt::skip]
const RUN_SHEET: [u8; 128] = [
    1, 0, 0, 0, // edition 1
    128, 0, 0, 0, // length 128
    2, 0, 0, 0, // n 2
    232, 3, 0, 0, // X 1,000
    80, 0, 0, 0, // bottoms from 80 on
    88, 0, 0, 0, // depths from 88 on
    96, 0, 0, 0, // discharges from 96 on
    112, 0, 0, 0, // nutrients from 112 on
    1, 0, 0, 0, // left: kind 1
    0, 0, 0, 0, // depth 0
    13, 0, 0, 0, // concentration 13
    0, 0, 0, 0, // zero
    0, 0, 0, 0, 0, 0, 0, 0, // discharge 0
    1, 0, 0, 0, // right: kind 1
    0, 0, 0, 0, // depth 0
    11, 0, 0, 0, // concentration 11
    0, 0, 0, 0, // zero
    0, 0, 0, 0, 0, 0, 0, 0, // discharge 0
    0, 0, 0, 0, // bottom 0
    232, 3, 0, 0, // bottom 1,000
    64, 156, 0, 0, // depth 40,000
    184, 136, 0, 0, // depth 35,000
    128, 141, 91, 0, 0, 0, 0, 0, // discharge 6,000,000
    192, 198, 45, 0, 0, 0, 0, 0, // discharge 3,000,000
    145, 95, 1, 0, 0, 0, 0, 0, // nutrient 90,001
    83, 195, 0, 0, 0, 0, 0, 0, // nutrient 50,003
];

#[test]
fn all_eight_totals() {
    let left = End {
        kind: 2,
        depth: 5_000,
        concentration: 7,
        ..WALL
    };
    let right = End {
        kind: 2,
        depth: 60_000,
        concentration: 5,
        zero: 0,
        discharge: -9_000_000,
    };
    let mut columns = Columns::of_cells(2);
    let opened = open(&RUN_SHEET, &mut columns, &mut []);
    assert_eq!(opened.refusal, 0);
    let mut r = Record {
        columns,
        outlets: vec![],
        x: opened.x,
        ends: opened.ends,
        book: opened.book,
    };
    assert_eq!(step(&mut r, 100).refusal, 0);
    assert_eq!(step(&mut r, 0).refusal, 10);
    let set = set_ends(
        &mut r.columns,
        &mut r.outlets,
        r.x,
        r.ends,
        r.book,
        [left, right],
    );
    assert_eq!(set.refusal, 0);
    (r.ends, r.book) = (set.ends, set.book);
    assert_eq!(
        greatest_step(&r.columns, &r.outlets, r.x, r.ends, r.book).refusal,
        0
    );
    assert_eq!(step(&mut r, 100).refusal, 0);
    let written = write(&r.columns, &r.outlets, r.x, r.ends, r.book, &mut [0; 128]);
    assert_eq!(written.refusal, 14);
    assert_eq!(settle(&mut r), 0);
    assert_eq!(
        r.book,
        book([600, 465, 7_800, 1_121], [1_089, 297, 5_445, 424])
    );
    assert_eq!(r.columns.depth, [38_990, 36_937]);
    assert_eq!(r.columns.nutrient, [94_012, 57_692]);
}
