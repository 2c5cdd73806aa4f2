//! X 1,000, t 100; F 30 where nothing else is said. r from r³ ≤ 1,000·k⁴ < (r+1)³, D = F²·r, E = floor(4.5518·|u|).

use reference::outlet::Outlet;
use reference::random::Record;
use reference::{Book, End};

use crate::{book, columns, rough_step, FED_AND_OPEN, WALL};

/// The left cell is deep and flows to the left at 500 mm/s; the right one lies thinly on a bank and flows to the right at 400.
fn bank() -> Record {
    let cells = [
        (0, 600_000, -300_000_000, 1_200_007, 600_000),
        (560_000, 29_990, 12_000_000, 90_001, 29_990),
    ];
    Record {
        columns: columns(&cells, &[0; 3]),
        outlets: vec![],
        x: 1_000,
        ends: [WALL; 2],
        book: Book::default(),
    }
}

/// N is 14 at the middle. Left: pushed to −194,272,823, k 59, r 2,296, D 2,066,400, E 2,275.
/// Right: pushed to 10,214,837, k 3, r 43, D 38,700, E 1,820.
#[test]
fn a_deep_and_a_thin_cell_between_walls() {
    let mut r = bank();
    let answer = rough_step(&mut r, 100, 30);
    assert_eq!((answer.refusal, answer.settled), (0, false));
    let cells = [
        (0, 599_986, -194_059_173, 1_200_007, 600_000),
        (560_000, 30_004, 9_756_026, 90_001, 29_990),
    ];
    assert_eq!(r.columns, columns(&cells, &[0, 14, 0]));
    assert_eq!(r.book, Book::default());

    // N is 126 and the speeds are −323 and 325. Left: pushed to −129,317,643, k, r and D as before,
    // E 1,470. Right: pushed to 8,402,342, k, r and D as before, E 1,479
    let answer = rough_step(&mut r, 100, 30);
    assert_eq!((answer.refusal, answer.settled), (0, false));
    let cells = [
        (0, 599_860, -129_225_714, 1_200_007, 600_000),
        (560_000, 30_130, 8_093_049, 90_001, 29_990),
    ];
    assert_eq!(r.columns, columns(&cells, &[0, 140, 0]));
    assert_eq!(r.book, Book::default());
}

/// Without friction the discharge is as pushed.
#[test]
fn the_same_step_without_friction() {
    let mut r = bank();
    assert_eq!(rough_step(&mut r, 100, 0).refusal, 0);
    let cells = [
        (0, 599_986, -194_272_823, 1_200_007, 600_000),
        (560_000, 30_004, 10_214_837, 90_001, 29_990),
    ];
    assert_eq!(r.columns, columns(&cells, &[0, 14, 0]));
}

/// A cell of 100,000 at 1,000 mm/s between open ends flows on: k 10, r 215, D 193,500, E 4,551, and
/// 100,000,000·193,500 = 97,702,107·198,051 + 6,543.
#[test]
fn a_cell_that_flows_on() {
    let after = |discharge, strickler| {
        let cell = (0, 100_000, discharge, 0, 100_000);
        let mut r = Record {
            columns: columns(&[cell], &[0; 2]),
            outlets: vec![],
            x: 1_000,
            ends: [End { kind: 1, ..WALL }; 2],
            book: Book::default(),
        };
        let refusal = rough_step(&mut r, 100, strickler).refusal;
        (refusal, r.columns.depth[0], r.columns.discharge[0])
    };
    assert_eq!(after(100_000_000, 30), (0, 100_000, 97_702_107));
    assert_eq!(after(-100_000_000, 30), (0, 100_000, -97_702_107));
    assert_eq!(after(100_000_000, 0), (0, 100_000, 100_000_000));
    assert_eq!(after(100_000_000, 9), (17, 100_000, 100_000_000));
}

/// Speeds 310, −555 and −173; the step settles first. N is 13,329, 9,464, 573 and −199, and 1, 30,000 and 3,000 are drawn.
/// Pushed to 100,589,654, k 29, r 890, D 801,000, E 1,411.
/// Pushed to −35,261,852, k 10 (13 before drawing), r 215, D 193,500, E 2,526.
/// Pushed to −1,663,429, k 0 (1 before drawing), so nothing is left.
#[test]
fn a_step_with_outlets_that_settles_first() {
    let cells = [
        (0, 290_000, 90_000_001, 900_001, 130_000),
        (20_000, 126_000, -70_000_000, 500_003, 10_000),
        (50_000, 11_500, -2_000_000, 777, 12_000),
    ];
    let wants = [(1, 30_000), (2, 3_000), (1, 0), (0, 1)];
    let mut outlets = wants.map(|(cell, want)| Outlet::new(cell, want));
    outlets[0].drawn = 5_000;
    let mut r = Record {
        columns: columns(&cells, &[285_000, 125_000, 4_000, 4_500]),
        outlets: outlets.to_vec(),
        x: 1_000,
        ends: FED_AND_OPEN,
        book: Book::default(),
    };
    let answer = rough_step(&mut r, 100, 30);
    assert_eq!((answer.refusal, answer.settled), (0, true));
    let cells = [
        (0, 293_864, 100_412_772, 2_029_616, 290_000),
        (20_000, 104_891, -34_807_466, 915_386, 126_000),
        (50_000, 9_272, 0, 200_487, 11_500),
    ];
    assert_eq!(r.columns, columns(&cells, &[13_329, 9_464, 573, -199]));
    let amounts: Vec<_> = (r.outlets.iter())
        .map(|o| [o.drawn, o.water, o.nutrient])
        .collect();
    assert_eq!(
        amounts,
        [
            [30_000, 30_000, 250_001],
            [3_000, 3_000, 0],
            [0; 3],
            [1, 1, 0]
        ]
    );
    assert_eq!(r.book, book([13_329, 0, 1_995_000, 0], [199, 0, 0, 291]));
}

/// A cell at 8,000 mm/s between open ends flows on; of 100,000 an outlet takes 10,000, so 720,000,000 is the most.
/// k 9, r 187, E 36,414. F 30, D 168,300: less than that is left. F 90, D 1,514,700: more, and it is cut.
#[test]
fn friction_and_then_the_cut() {
    let slowed = |strickler| {
        let open = |concentration| End {
            kind: 1,
            concentration,
            ..WALL
        };
        let mut r = Record {
            columns: columns(&[(-7, 100_000, -800_000_000, 250_003, 100_000)], &[0; 2]),
            outlets: vec![Outlet::new(0, 10_000)],
            x: 1_000,
            ends: [open(5), open(9)],
            book: Book::default(),
        };
        assert_eq!(rough_step(&mut r, 100, strickler).refusal, 0);
        assert_eq!(r.book, book([0, 80_000, 0, 0], [80_000, 0, 0, 0]));
        r.columns
    };
    let with = |discharge| {
        let cell = (-7, 90_000, discharge, 250_003, 100_000);
        columns(&[cell], &[-80_000; 2])
    };
    assert_eq!(slowed(30), with(-657_698_056));
    assert_eq!(slowed(90), with(-720_000_000));
    assert_eq!(slowed(0), with(-720_000_000));
}
