use reference::outlet::{give, Outlet};
use reference::random::Record;
use reference::settling::{outlet_shares, shares, Shares};
use reference::{Book, End};

use crate::{columns, settle, WALL};

#[test]
fn what_a_cell_gives() {
    assert_eq!(give(10, &[3, 3, 7]), [3, 2, 5]);
    assert_eq!(give(6, &[0, 5, 8]), [0, 3, 3]);
    assert_eq!(give(13, &[0, 5, 8]), [0, 5, 8]);
}

#[test]
fn an_emptied_cell_with_two_outlets() {
    let open = End { kind: 1, ..WALL };
    let outlets = [2, 1].map(|drawn| Outlet {
        drawn,
        ..Outlet::new(0, 0)
    });
    let mut r = Record {
        columns: columns(&[(0, 0, 0, 7, 5)], &[-1, 1]),
        outlets: outlets.to_vec(),
        x: 1_000,
        ends: [open; 2],
        book: Book::default(),
    };
    assert_eq!(shares(7, 5, -1, 1), Shares { right: 1, left: 1 });
    assert_eq!(outlet_shares(&r.columns, &r.outlets), [3, 2]);
    assert_eq!(settle(&mut r), 0);
    assert_eq!(r.columns.nutrient, [0]);
    assert_eq!(
        r.outlets.iter().map(|o| o.nutrient).collect::<Vec<_>>(),
        [3, 2]
    );
}
