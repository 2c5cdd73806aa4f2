use reference::random::Record;
use reference::{greatest_step, open, set_ends, write, Columns, End};

use crate::{book, columns, rough_step, settle, WALL};

const MOST_TOTAL: u64 = 1_000_000_000_000_000_000;

fn kind_of(kind: u32) -> End {
    End {
        kind,
        concentration: 1,
        ..WALL
    }
}

/// 4,000,000 of water at 8,000 mm/s towards the cell.
const TORRENT: End = End {
    kind: 2,
    depth: 4_000_000,
    concentration: 0,
    zero: 0,
    discharge: 32_000_000_000,
};

/// One cell at rest, a wall at its right: base depth, X, left end, depth, c at the left, water and nutrient that came in there.
fn cell(b: u64, x: u16, left: End, h: u64, c: i64, water: u64, nutrient: u64) -> Record {
    Record {
        columns: columns(&[(0, h, 0, 0, b)], &[c, 0]),
        outlets: vec![],
        x: x.into(),
        ends: [left, WALL],
        book: book([water, 0, nutrient, 0], [0; 4]),
    }
}

fn grain_in(total: u64) -> Record {
    cell(5, 100, kind_of(1), 6, 1, 0, total)
}

/// All is wrong at its foot, and each rung has mended one thing more.
#[test]
fn ladder_of_a_step() {
    let rough = |r: &Record, t, strickler| rough_step(&mut r.clone(), t, strickler).refusal;
    let refused = |r: &Record, t| rough(r, t, 9);
    let over = MOST_TOTAL + 1;
    let mut r = cell(5_000_000, 0, kind_of(3), 5_000_000, 1, over, 0);
    r.columns.base.clear();
    assert_eq!(refused(&r, 1_001), 4);
    r.columns.base.push(5_000_000);
    assert_eq!(refused(&r, 1_001), 5);
    r.x = 100;
    assert_eq!(refused(&r, 1_001), 6);
    r.ends[0] = TORRENT;
    assert_eq!(refused(&r, 1_001), 7);
    r.columns.depth[0] = 4_000_000;
    r.columns.base[0] = 4_000_000;
    assert_eq!(refused(&r, 1_001), 8);
    r.columns.carried[0] = 0;
    assert_eq!(refused(&r, 1_001), 9);
    assert_eq!(
        greatest_step(&r.columns, &r.outlets, r.x, r.ends, r.book).refusal,
        9
    );
    r.book.left.water_in = MOST_TOTAL;
    assert_eq!(
        greatest_step(&r.columns, &r.outlets, r.x, r.ends, r.book).refusal,
        0
    );
    assert_eq!(refused(&r, 1_001), 10);
    assert_eq!(refused(&r, 1_000), 17);
    let refused = |r: &Record, t| rough(r, t, 10);
    assert_eq!(refused(&r, 1_000), 11);
    assert_eq!(refused(&r, 6), 12);
    r.columns.depth[0] = 0;
    r.columns.base[0] = 0;
    assert_eq!(refused(&r, 6), 13);
    r.book.left.water_in = 0;
    assert_eq!(refused(&r, 6), 0);
}

#[test]
fn new_ends_come_after_x_and_before_the_cells() {
    let set = |x, left: End| {
        let mut r = cell(5_000_000, x, TORRENT, 5_000_000, 0, 0, 0);
        set_ends(
            &mut r.columns,
            &mut r.outlets,
            r.x,
            r.ends,
            r.book,
            [left, WALL],
        )
        .refusal
    };
    let found = [set(0, kind_of(3)), set(100, kind_of(3)), set(100, TORRENT)];
    assert_eq!(found, [5, 6, 7]);
}

#[test]
fn a_settling_of_one_grain() {
    let totals = [MOST_TOTAL + 1, MOST_TOTAL, MOST_TOTAL - 1];
    let found = totals.map(|total| settle(&mut grain_in(total)));
    assert_eq!(found, [9, 13, 0]);
}

#[test]
fn carried_water_comes_before_room() {
    let written = |r: Record, room: usize| {
        let mut out = vec![0; room];
        write(&r.columns, &r.outlets, r.x, r.ends, r.book, &mut out).refusal
    };
    let emptied = || cell(0, 100, TORRENT, 0, 0, 0, 0);
    let found = [
        written(grain_in(MOST_TOTAL + 1), 0),
        written(grain_in(0), 0),
        written(emptied(), 103),
        written(emptied(), 104),
    ];
    assert_eq!(found, [9, 14, 15, 0]);
}

/// A sheet of one cell by the low bytes of edition, n, offset of the bottoms, X and left kind, and the third byte of the depth.
fn sheet([edition, n, bottoms, x, kind, depth]: [u8; 6]) -> [u8; 104] {
    let mut sheet = [0; 104];
    sheet[0] = edition;
    sheet[4] = 104;
    sheet[8] = n;
    sheet[12] = x;
    sheet[16] = bottoms;
    sheet[20] = 84;
    sheet[24] = 88;
    sheet[28] = 96;
    sheet[32] = kind;
    sheet[86] = depth;
    sheet
}

#[test]
fn ladder_of_an_opening() {
    let found = [
        ([2, 2, 79, 99, 3, 255], 0),
        ([1, 2, 79, 99, 3, 255], 0),
        ([1, 1, 79, 99, 3, 255], 0),
        ([1, 1, 80, 99, 3, 255], 0),
        ([1, 1, 80, 99, 3, 255], 1),
        ([1, 1, 80, 100, 3, 255], 1),
        ([1, 1, 80, 100, 0, 255], 1),
        ([1, 1, 80, 100, 0, 1], 1),
    ]
    .map(|(bytes, cells)| open(&sheet(bytes), &mut Columns::of_cells(cells), &mut []).refusal);
    assert_eq!(found, [1, 2, 3, 4, 5, 6, 7, 0]);
}
