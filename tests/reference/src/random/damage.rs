//! Damage that breaks one chosen ground of a sound record and none before it.

use super::outlets::{damage_drawn, damage_list, damage_totals};
use super::{Random, Record};
use crate::record::{outflow, Columns, End, BED_LIMIT, DEEPEST, FASTEST, FED, MOST_TOTAL};
use crate::record::{LEAST_X, MOST_CELLS, MOST_X, OPEN, RICHEST, WALL};

/// Breaks this ground, 4 to 9 or 16, of a sound record. 8 and 9 may be broken by its outlets.
pub fn damage_record(r: &mut Random, record: &mut Record, ground: u32) {
    match ground {
        4 => damage_columns(r, &mut record.columns),
        5 => record.x = r.pick(&[0, LEAST_X - 1, MOST_X + 1, LEAST_X + (1 << 32), u64::MAX]),
        6 => {
            let side = r.below(2) as usize;
            damage_end(r, &mut record.ends[side]);
        }
        7 => damage_cell(r, &mut record.columns),
        16 => damage_list(r, &mut record.outlets, record.columns.bed.len()),
        8 if by_outlets(r, record) => damage_drawn(r, record),
        8 => damage_carried(r, record),
        9 if by_outlets(r, record) => damage_totals(r, &mut record.outlets),
        9 => damage_book(r, record),
        _ => panic!("no ground {ground} of a record"),
    }
}

fn by_outlets(r: &mut Random, record: &Record) -> bool {
    !record.outlets.is_empty() && r.one_in(2)
}

/// One column gets a length that does not fit (ground 4).
pub fn damage_columns(r: &mut Random, c: &mut Columns) {
    let n = c.bed.len();
    let wrong = |r: &mut Random, right: usize| {
        let other = r.below(MOST_CELLS as u64 + 2) as usize;
        let length = r.pick(&[0, right - 1, right + 1, other]);
        if length == right {
            right + 1
        } else {
            length
        }
    };
    match r.below(6) {
        0 => c.bed.resize(wrong(r, n), 0),
        1 => c.depth.resize(wrong(r, n), 0),
        2 => c.discharge.resize(wrong(r, n), 0),
        3 => c.nutrient.resize(wrong(r, n), 0),
        4 => c.base.resize(wrong(r, n), 0),
        _ => c.carried.resize(wrong(r, n + 1), 0),
    }
}

/// Breaks a sound end (ground 6), by values that a sheet can hold.
pub fn damage_end(r: &mut Random, end: &mut End) {
    let sign = r.pick(&[1, -1]);
    let most = u32::MAX.into();
    match (r.below(5), end.kind) {
        (0, _) => end.kind = r.pick(&[3, 4, 1 << 16, u32::MAX]),
        (1, _) => end.zero = r.pick(&[1, 1 << 31, u32::MAX]),
        (2, WALL) => end.concentration = r.pick(&[1, RICHEST]),
        (2, _) => end.concentration = r.pick(&[RICHEST + 1, most]),
        (3, FED) => end.depth = r.pick(&[0, DEEPEST + 1, most]),
        (3, _) => end.depth = r.pick(&[1, DEEPEST, most]),
        (_, FED) => {
            let over = (FASTEST * end.depth) as i64 + 1;
            end.discharge = r.pick(&[sign * over, i64::MAX, i64::MIN]);
        }
        _ => end.discharge = r.pick(&[sign, i64::MAX, i64::MIN]),
    }
}

/// One cell value leaves its range (ground 7).
fn damage_cell(r: &mut Random, c: &mut Columns) {
    let i = r.below(c.bed.len() as u64) as usize;
    let sign = r.pick(&[1, -1]);
    match r.below(5) {
        0 => c.bed[i] = r.pick(&[sign * (BED_LIMIT + 1), i64::MAX, i64::MIN]),
        1 => c.depth[i] = r.pick(&[DEEPEST + 1, 1 << 63, u64::MAX]),
        2 => c.base[i] = r.pick(&[DEEPEST + 1, 1 << 63, u64::MAX]),
        3 => {
            let over = (FASTEST * c.depth[i]) as i64 + 1;
            c.discharge[i] = r.pick(&[sign * over, i64::MAX, i64::MIN]);
        }
        _ => c.nutrient[i] = r.pick(&[RICHEST * c.base[i] + 1, u64::MAX]),
    }
}

/// Breaks one rule of the carried water (ground 8).
fn damage_carried(r: &mut Random, record: &mut Record) {
    let broken = match r.below(4) {
        0 => shift_all(r, record),
        1 => water_through_wall(record),
        _ => false,
    };
    if broken {
        return;
    }
    let c = &mut record.columns.carried;
    let i = r.below(c.len() as u64) as usize;
    let (old, limit) = (c[i], DEEPEST as i64);
    let new = match r.below(2) {
        0 => r.pick(&[limit + 1, -limit - 1, i64::MAX, i64::MIN]),
        _ => r.pick(&[limit, -limit, old + 1, old - 1]),
    };
    // one changed entry breaks h = b + c(i) − c(i+1)
    c[i] = if new == old { old + 1 } else { new };
}

/// The same water through every interface keeps all depths: only the outflow bound breaks.
fn shift_all(r: &mut Random, record: &mut Record) -> bool {
    let c = &mut record.columns;
    let i = r.below(c.base.len() as u64) as usize;
    let shift = c.base[i] as i64 - c.carried[i + 1] + 1;
    let highest = c.carried.iter().max().expect("n+1 entries");
    if highest + shift > DEEPEST as i64 {
        return false;
    }
    c.carried.iter_mut().for_each(|w| *w += shift);
    for end in &mut record.ends {
        if end.kind == WALL {
            end.kind = OPEN;
        }
    }
    outflow(c.carried[i], c.carried[i + 1]) > c.base[i]
}

/// One micrometre enters through the left wall: only the rule of walls breaks.
fn water_through_wall(record: &mut Record) -> bool {
    let c = &mut record.columns;
    if record.ends[0].kind != WALL || c.depth[0] == DEEPEST {
        return false;
    }
    c.carried[0] = 1;
    c.depth[0] += 1;
    true
}

/// A total over 10^18 (ground 9).
fn damage_book(r: &mut Random, record: &mut Record) {
    let over = r.pick(&[MOST_TOTAL + 1, u64::MAX]);
    let side = if r.one_in(2) {
        &mut record.book.left
    } else {
        &mut record.book.right
    };
    match r.below(4) {
        0 => side.water_in = over,
        1 => side.water_out = over,
        2 => side.nutrient_in = over,
        _ => side.nutrient_out = over,
    }
}
