use reference::random::Record;
use reference::settling::{shares, Shares};
use reference::{Book, End};

use crate::{book, columns, settle, WALL};

#[test]
fn a_grain_of_which_all_the_water_left() {
    let open = End { kind: 1, ..WALL };
    let mut r = Record {
        columns: columns(&[(0, 0, 0, 1, 2)], &[-1, 1]),
        outlets: vec![],
        x: 1_000,
        ends: [open; 2],
        book: Book::default(),
    };
    assert_eq!(shares(1, 2, -1, 1), Shares { right: 0, left: 1 });
    assert_eq!(settle(&mut r), 0);
    assert_eq!(r.columns.nutrient, [0]);
    assert_eq!(r.book, book([0, 0, 0, 1], [0, 0, 0, 0]));
}

#[test]
fn both_shares_and_both_inflows() {
    let open = |concentration: u16| End {
        kind: 1,
        concentration: concentration.into(),
        ..WALL
    };
    let cells = [(0, 24, 0, 100, 20), (0, 2, 0, 10, 7), (0, 37, 0, 200, 30)];
    let mut r = Record {
        columns: columns(&cells, &[2, -2, 3, -4]),
        outlets: vec![],
        x: 1_000,
        ends: [open(5), open(9)],
        book: Book::default(),
    };
    assert_eq!(shares(10, 7, -2, 3), Shares { right: 4, left: 3 });
    assert_eq!(settle(&mut r), 0);
    assert_eq!(r.columns.nutrient, [113, 3, 240]);
    assert_eq!(r.columns.base, [24, 2, 37]);
    assert_eq!(r.columns.carried, [0; 4]);
    assert_eq!(r.book, book([0, 0, 10, 0], [0, 0, 36, 0]));
}
