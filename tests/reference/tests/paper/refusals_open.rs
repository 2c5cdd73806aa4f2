//! Every ground of opening alone and every pair.

use reference::random::{sheet_of, COLUMN_ORDERS};
use reference::{open, Book, Columns, End, OpenAnswer, Outlet};

use crate::refusals::{sound, turn};

type Break = (u32, &'static str, Box<dyn Fn(&mut Case)>);

/// All that an opening is given.
#[derive(Clone, Debug, PartialEq)]
struct Case {
    sheet: Vec<u8>,
    columns: Columns,
    outlets: Vec<Outlet>,
}

/// Three cells: 152 bytes, columns at 80, 92, 104 and 128.
fn sound_case() -> Case {
    let mut columns = Columns::of_cells(3);
    columns.bed.fill(11);
    columns.carried.fill(-12);
    let outlet = Outlet {
        drawn: u64::MAX,
        ..Outlet::new(2, 13)
    };
    Case {
        sheet: sheet_of(&sound().record, COLUMN_ORDERS[0]),
        columns,
        outlets: vec![outlet; 2],
    }
}

/// Writes a u32 into the sheet.
fn word(ground: u32, name: &'static str, at: usize, value: u32) -> Break {
    let put = move |case: &mut Case| {
        case.sheet[at..at + 4].copy_from_slice(&value.to_le_bytes());
    };
    (ground, name, Box::new(put))
}

fn long(ground: u32, name: &'static str, at: usize, value: i64) -> Break {
    let put = move |case: &mut Case| {
        case.sheet[at..at + 8].copy_from_slice(&value.to_le_bytes());
    };
    (ground, name, Box::new(put))
}

fn size(ground: u32, name: &'static str, bytes: usize) -> Break {
    let cut = move |case: &mut Case| case.sheet.resize(bytes, 0);
    (ground, name, Box::new(cut))
}

fn lend(change: impl Fn(&mut Columns) + 'static) -> Break {
    let lend = move |case: &mut Case| change(&mut case.columns);
    (4, "lent column", Box::new(lend))
}

fn list(name: &'static str, change: impl Fn(&mut Vec<Outlet>) + 'static) -> Break {
    let lend = move |case: &mut Case| change(&mut case.outlets);
    (16, name, Box::new(lend))
}

fn breaks() -> Vec<Break> {
    let mut list = vec![
        size(1, "empty", 0),
        size(1, "79 bytes", 79),
        word(1, "edition 0", 0, 0),
        word(1, "edition 2", 0, 2),
        word(1, "edition 257", 0, 257),
        word(2, "no cells", 8, 0),
        word(2, "513 cells", 8, 513),
        word(2, "other cells", 8, 4),
        word(2, "cells whose bytes wrap", 8, 3 + (1 << 29)),
        word(2, "length", 4, 151),
        word(2, "length too", 4, 176),
        size(2, "byte more", 153),
        size(2, "byte less", 151),
        size(2, "header alone", 80),
        lend(|c| c.bed.truncate(2)),
        lend(|c| c.bed.push(0)),
        lend(|c| *c = Columns::of_cells(4)),
        lend(|c| *c = Columns::default()),
        lend(|c| c.depth.push(0)),
        lend(|c| c.discharge.truncate(2)),
        lend(|c| c.nutrient.clear()),
        lend(|c| c.base.push(0)),
        lend(|c| c.carried.truncate(3)),
        lend(|c| c.carried.push(0)),
        word(5, "X 0", 12, 0),
        word(5, "X 99", 12, 99),
        word(5, "X 100,001", 12, 100_001),
        word(6, "left kind", 32, 3),
        word(6, "left depth", 36, 0),
        word(6, "left concentration", 40, 500_001),
        word(6, "left zero", 44, 1),
        long(6, "left discharge", 48, i64::MIN),
        word(6, "right kind", 56, u32::MAX),
        word(6, "right depth", 60, 1),
        word(6, "right concentration", 64, u32::MAX),
        word(6, "right zero", 68, 1 << 31),
        long(6, "right discharge", 72, -1),
        word(7, "bed high", 80, 100_000_001),
        word(7, "bed low", 84, -100_000_001i32 as u32),
        word(7, "bed lowest", 88, i32::MIN as u32),
        word(7, "depth", 92, 4_000_001),
        word(7, "last depth", 100, u32::MAX),
        long(7, "discharge", 104, 8_000_000_001),
        long(7, "discharge back", 112, -8_000_000_001),
        long(7, "least discharge", 120, i64::MIN),
        long(7, "nutrient", 128, 500_000_000_001),
        long(7, "most nutrient", 144, -1),
        list("33 outlets", |o| o.resize(33, Outlet::default())),
        list("cell 3", |o| o[0].cell = 3),
        list("cell 2^32 + 1", |o| o[1].cell = (1 << 32) + 1),
        list("last cell", |o| o[1].cell = u64::MAX),
        list("want", |o| o[1].want = 4_000_001),
        list("want 2^32", |o| o[0].want = 1 << 32),
        list("greatest want", |o| o[0].want = u64::MAX),
    ];
    for at in [16, 20, 24, 28] {
        list.push(word(3, "offset 0", at, 0));
        list.push(word(3, "offset 79", at, 79));
        list.push(word(3, "past the end", at, 141));
        list.push(word(3, "near 2^32", at, u32::MAX));
        list.push(word(3, "wraps into the sheet", at, u32::MAX - 11));
    }
    list.push(word(3, "beds on depths", 16, 92));
    list.push(word(3, "depths reach into discharges", 20, 93));
    list.push(word(3, "discharges reach back into depths", 24, 103));
    list.push(word(3, "nutrients on discharges", 28, 104));
    list
}

fn open_case(case: &mut Case) -> OpenAnswer {
    open(&case.sheet, &mut case.columns, &mut case.outlets)
}

fn check(mut case: Case, ground: u32, name: &str) {
    let before = case.clone();
    let refused = OpenAnswer {
        refusal: ground,
        x: 0,
        ends: [End::default(); 2],
        book: Book::default(),
    };
    assert_eq!(open_case(&mut case), refused, "{name}");
    assert_eq!(case, before, "{name}");
}

#[test]
fn opening_refuses_by_1_to_7_and_16() {
    assert_eq!(open_case(&mut sound_case()).refusal, 0);
    for (ground, name, damage) in &breaks() {
        let mut case = sound_case();
        damage(&mut case);
        check(case, *ground, name);
    }
}

#[test]
fn first_ground_of_two_wins_at_opening() {
    let breaks = breaks();
    for (first, name, damage) in &breaks {
        for (_, other, more) in breaks
            .iter()
            .filter(|(later, ..)| turn(*later) > turn(*first))
        {
            let mut case = sound_case();
            // the earlier ground last, so that the other cannot mend it
            more(&mut case);
            damage(&mut case);
            check(case, *first, &format!("{name} and {other}"));
        }
    }
}
