//! Worked examples that pin the model, one module for each file of `specs/` of `crates/worked`, `worked_grounds` and
//! `worked_runs`: the values that are proved there of the definitions come from here. Where a number can be found by hand,
//! the comment there says how.

mod cfl;
mod draws;
mod flux;
mod friction;
mod grounds;
mod interface;
mod outlets;
mod shares;
mod sheets;
mod steps;
mod totals;

use reference::random::Record;
use reference::{Book, Columns, End, StepAnswer, Totals};

/// A wall; other ends are written as it with some fields changed.
const WALL: End = End {
    kind: 0,
    depth: 0,
    concentration: 0,
    zero: 0,
    discharge: 0,
};

/// A left end that is fed and a right one that is open.
const FED_AND_OPEN: [End; 2] = [
    End {
        kind: 2,
        depth: 300_000,
        concentration: 7,
        zero: 0,
        discharge: 150_000_000,
    },
    End {
        kind: 1,
        concentration: 3,
        ..WALL
    },
];

/// Cells as (bottom, depth, discharge, nutrient, base depth), and the carried water.
fn columns(cells: &[(i64, u64, i64, u64, u64)], carried: &[i64]) -> Columns {
    Columns {
        bed: cells.iter().map(|c| c.0).collect(),
        depth: cells.iter().map(|c| c.1).collect(),
        discharge: cells.iter().map(|c| c.2).collect(),
        nutrient: cells.iter().map(|c| c.3).collect(),
        base: cells.iter().map(|c| c.4).collect(),
        carried: carried.to_vec(),
    }
}

/// Water in, water out, nutrient in, nutrient out.
fn totals([water_in, water_out, nutrient_in, nutrient_out]: [u64; 4]) -> Totals {
    Totals {
        water_in,
        water_out,
        nutrient_in,
        nutrient_out,
    }
}

fn book(left: [u64; 4], right: [u64; 4]) -> Book {
    Book {
        left: totals(left),
        right: totals(right),
    }
}

/// A step of t without friction; the record keeps the book handed back.
fn step(r: &mut Record, t: u16) -> StepAnswer {
    rough_step(r, t, 0)
}

/// A step of t over a bed of this coefficient; the record keeps the book handed back.
fn rough_step(r: &mut Record, t: u16, strickler: u8) -> StepAnswer {
    let answer = reference::step(
        &mut r.columns,
        &mut r.outlets,
        r.x,
        r.ends,
        r.book,
        t.into(),
        strickler.into(),
    );
    r.book = answer.book;
    answer
}

/// A settling; the record keeps the book handed back.
fn settle(r: &mut Record) -> u32 {
    let answer = reference::settle(&mut r.columns, &mut r.outlets, r.x, r.ends, r.book);
    r.book = answer.book;
    answer.refusal
}
