//! X 1,000.

use reference::flux::wave_speed;
use reference::random::Record;
use reference::{greatest_step, Book, End};

use crate::{columns, step, WALL};

fn one_cell(h: u64, q: i64, ends: [End; 2]) -> Record {
    Record {
        columns: columns(&[(0, h, q, 0, h)], &[0, 0]),
        outlets: vec![],
        x: 1_000,
        ends,
        book: Book::default(),
    }
}

/// Cells of these depths at rest on a flat bottom.
fn at_rest(depths: &[u64], ends: [End; 2]) -> Record {
    let cells: Vec<_> = depths.iter().map(|&h| (0, h, 0, 0, h)).collect();
    Record {
        columns: columns(&cells, &vec![0; depths.len() + 1]),
        outlets: vec![],
        x: 1_000,
        ends,
        book: Book::default(),
    }
}

/// t passes and the next is 11, and the greatest step is t at this place.
fn equality(record: &Record, t: u16, place: u16) {
    assert_eq!(step(&mut record.clone(), t).refusal, 0);
    assert_eq!(step(&mut record.clone(), t + 1).refusal, 11);
    greatest(record, t, place);
}

/// The greatest step is t at this place.
fn greatest(record: &Record, t: u16, place: u16) {
    let greatest = greatest_step(
        &record.columns,
        &record.outlets,
        record.x,
        record.ends,
        record.book,
    );
    assert_eq!(greatest.refusal, 0);
    assert_eq!(greatest.t, t.into());
    assert_eq!(greatest.place, place.into());
}

#[test]
fn cfl_at_equality() {
    let fed = End {
        kind: 2,
        depth: 271_900,
        ..WALL
    };
    let open = End { kind: 1, ..WALL };
    assert_eq!(wave_speed(271_900), 2_000);
    equality(&one_cell(271_900, 0, [WALL, WALL]), 500, 1);
    assert_eq!(wave_speed(272_000), 2_001);
    equality(&one_cell(272_000, 0, [WALL, WALL]), 499, 1);
    equality(&one_cell(271_900, -135_950_000, [WALL, WALL]), 400, 1);
    equality(&one_cell(100_000, 0, [fed, WALL]), 500, 0);
    equality(&one_cell(271_900, 0, [fed, WALL]), 500, 1);
    equality(&one_cell(100_000, 0, [WALL, fed]), 500, 2);
    equality(&one_cell(271_900, 0, [WALL, fed]), 500, 2);
    equality(&one_cell(271_900, 0, [open, WALL]), 500, 1);
    equality(&one_cell(271_900, 0, [WALL, open]), 500, 1);
    let flowing = End {
        discharge: -135_950_000,
        ..fed
    };
    equality(&one_cell(100_000, 0, [flowing, WALL]), 400, 0);
    let away = End {
        discharge: 135_950_000,
        ..fed
    };
    equality(&one_cell(100_000, 0, [WALL, away]), 400, 2);
    let pair = [100_000, 271_900, 271_900, 100_000, 100_000];
    equality(&at_rest(&pair, [WALL, WALL]), 500, 3);
    equality(&at_rest(&[100_000; 3], [fed, fed]), 500, 4);
}

/// Every place counts as 0, so the last of them is named; no step within 1..1,000 breaks CFL.
#[test]
fn cfl_of_a_dry_reach() {
    let open = End { kind: 1, ..WALL };
    for (n, place) in [(1, 2), (3, 4)] {
        let dry = at_rest(&vec![0; n], [WALL, open]);
        assert_eq!(step(&mut dry.clone(), 1_000).refusal, 0);
        assert_eq!(step(&mut dry.clone(), 1_001).refusal, 10);
        greatest(&dry, 1_000, place);
    }
}

/// Both depths of the middle cell are reduced to 0 at its banks; the whole depth counts.
#[test]
fn cfl_of_a_pit() {
    let bank = (300_000, 0, 0, 0, 0);
    let pit = Record {
        columns: columns(&[bank, (0, 271_900, 0, 0, 271_900), bank], &[0, 0, 0, 0]),
        outlets: vec![],
        x: 1_000,
        ends: [WALL, WALL],
        book: Book::default(),
    };
    equality(&pit, 500, 2);
}
