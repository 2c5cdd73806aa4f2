use reference::{open, write, Book, Columns, End, OpenAnswer};

use crate::{columns, WALL};

/// The columns in the writer's order, both ends fed.
#[rustfmt::skip]
const FED_SHEET: [u8; 104] = [
    1, 0, 0, 0, // edition 1
    104, 0, 0, 0, // length 104
    1, 0, 0, 0, // n 1
    3, 4, 0, 0, // X 1,027
    80, 0, 0, 0, // bottoms from 80 on
    84, 0, 0, 0, // depths from 84 on
    88, 0, 0, 0, // discharges from 88 on
    96, 0, 0, 0, // nutrients from 96 on
    2, 0, 0, 0, // left: kind 2
    3, 2, 1, 0, // depth 66,051
    5, 6, 0, 0, // concentration 1,541
    0, 0, 0, 0, // zero
    121, 41, 237, 255, 255, 255, 255, 255, // discharge −1,234,567
    2, 0, 0, 0, // right: kind 2
    8, 8, 7, 0, // depth 460,808
    10, 10, 0, 0, // concentration 2,570
    0, 0, 0, 0, // zero
    51, 34, 17, 0, 0, 0, 0, 0, // discharge 1,122,867
    144, 238, 254, 255, // bottom −70,000
    1, 2, 4, 0, // depth 262,657
    79, 151, 33, 197, 255, 255, 255, 255, // discharge −987,654,321
    122, 20, 174, 71, 1, 0, 0, 0, // nutrient 5,497,558,138
];

/// The columns in the opposite order, a wall at the left and an open end at the right.
#[rustfmt::skip]
const TURNED_SHEET: [u8; 104] = [
    1, 0, 0, 0, // edition 1
    104, 0, 0, 0, // length 104
    1, 0, 0, 0, // n 1
    3, 4, 0, 0, // X 1,027
    100, 0, 0, 0, // bottoms from 100 on
    96, 0, 0, 0, // depths from 96 on
    88, 0, 0, 0, // discharges from 88 on
    80, 0, 0, 0, // nutrients from 80 on
    0, 0, 0, 0, // left: kind 0
    0, 0, 0, 0, // depth 0
    0, 0, 0, 0, // concentration 0
    0, 0, 0, 0, // zero
    0, 0, 0, 0, 0, 0, 0, 0, // discharge 0
    1, 0, 0, 0, // right: kind 1
    0, 0, 0, 0, // depth 0
    9, 0, 0, 0, // concentration 9
    0, 0, 0, 0, // zero
    0, 0, 0, 0, 0, 0, 0, 0, // discharge 0
    122, 20, 174, 71, 1, 0, 0, 0, // nutrient 5,497,558,138
    79, 151, 33, 197, 255, 255, 255, 255, // discharge −987,654,321
    1, 2, 4, 0, // depth 262,657
    144, 238, 254, 255, // bottom −70,000
];

fn cell() -> Columns {
    let cell = (-70_000, 262_657, -987_654_321, 5_497_558_138, 262_657);
    columns(&[cell], &[0, 0])
}

fn opened(ends: [End; 2]) -> OpenAnswer {
    OpenAnswer {
        refusal: 0,
        x: 1_027,
        ends,
        book: Book::default(),
    }
}

#[test]
fn a_sheet_is_read_and_written_back() {
    let left = End {
        kind: 2,
        depth: 66_051,
        concentration: 1_541,
        zero: 0,
        discharge: -1_234_567,
    };
    let right = End {
        kind: 2,
        depth: 460_808,
        concentration: 2_570,
        zero: 0,
        discharge: 1_122_867,
    };
    let mut c = Columns::of_cells(1);
    assert_eq!(open(&FED_SHEET, &mut c, &mut []), opened([left, right]));
    assert_eq!(c, cell());
    let mut out = [9; 106];
    let written = write(&c, &[], 1_027, [left, right], Book::default(), &mut out);
    assert_eq!(written.refusal, 0);
    assert_eq!(out[..104], FED_SHEET);
    assert_eq!(out[104..], [9, 9]);
}

#[test]
fn a_sheet_with_its_columns_turned_round() {
    let right = End {
        kind: 1,
        concentration: 9,
        ..WALL
    };
    let mut c = Columns::of_cells(1);
    assert_eq!(open(&TURNED_SHEET, &mut c, &mut []), opened([WALL, right]));
    assert_eq!(c, cell());
}
