//! The reaches that steps are made on.

use reference::random::{end_of_kind, Random, Record};
use reference::record::{FED, OPEN, WALL};
use reference::{Book, Columns};

/// Cells of 10 m over a bed that falls by `slope` a cell, each with the depth and the discharge that `cell` gives its number.
fn reach_of(
    r: &mut Random,
    cells: usize,
    slope: i64,
    cell: impl Fn(&mut Random, i64) -> (i64, i64),
    kinds: [u32; 2],
) -> Record {
    let mut columns = Columns::of_cells(cells);
    for i in 0..cells {
        let (h, q) = cell(r, i as i64);
        columns.bed[i] = -slope * i as i64;
        columns.depth[i] = h as u64;
        columns.base[i] = h as u64;
        columns.discharge[i] = q;
        columns.nutrient[i] = r.below(500_000) * h as u64;
    }
    Record {
        columns,
        outlets: vec![],
        x: 10_000,
        ends: kinds.map(|kind| end_of_kind(r, kind)),
        book: Book::default(),
    }
}

/// A cell about as deep and as fast as this: its depth and its discharge.
fn about(r: &mut Random, depth: i64, spread: i64, velocity: i64) -> (i64, i64) {
    let h = depth + r.between(-spread, spread);
    (h, h * velocity + r.between(-20, 20) * h)
}

/// A gentle flow of 0.5 to 1.5 m/s in water 1 to 2 m deep, fed at the left and open at the right; every cell differs a little from its neighbours.
pub fn flow(r: &mut Random, cells: usize, slope: i64) -> Record {
    let (depth, velocity) = (r.between(1_000_000, 2_000_000), r.between(500, 1_500));
    let cell = |r: &mut Random, _| about(r, depth, 20_000, velocity);
    let mut record = reach_of(r, cells, slope, cell, [FED, OPEN]);
    record.ends[0].depth = depth as u64;
    record.ends[0].discharge = depth * velocity;
    record
}

/// The same flow over a bed whose levels are tossed within so many micrometres.
fn flow_over(r: &mut Random, cells: usize, roughness: i64) -> Record {
    let mut record = flow(r, cells, 0);
    for level in &mut record.columns.bed {
        *level = r.between(-roughness, roughness);
    }
    record
}

/// Neighbours differ by centimetres, upwards or downwards, which a processor cannot learn.
pub fn uneven(r: &mut Random, cells: usize) -> Record {
    flow_over(r, cells, 20_000)
}

/// Neighbours differ by up to 1.6 m, so that the reduced depths are anything.
pub fn drops(r: &mut Random, cells: usize) -> Record {
    flow_over(r, cells, 800_000)
}

/// Water of 10 to 20 cm at 2 to 3 m/s, which is faster than its waves: of u+a and u−a, both are above 0 where it goes rightwards and neither where it
/// goes leftwards.
fn rapid(r: &mut Random, cells: usize, rightwards: impl Fn(&mut Random, i64) -> bool) -> Record {
    let cell = |r: &mut Random, i| {
        let h = r.between(100_000, 200_000);
        let speed = r.between(2_000, 3_000);
        (
            h,
            if rightwards(r, i) {
                h * speed
            } else {
                -h * speed
            },
        )
    };
    reach_of(r, cells, 0, cell, [WALL, WALL])
}

/// The direction turns from each cell to the next.
pub fn alternating(r: &mut Random, cells: usize) -> Record {
    rapid(r, cells, |_, i| i % 2 == 0)
}

/// Each cell's direction is a toss of a coin, which a processor cannot learn.
pub fn tossed(r: &mut Random, cells: usize) -> Record {
    rapid(r, cells, |r, _| r.below(2) == 0)
}

/// Water at rest with a level surface over a bed that falls by 1 mm a cell.
pub fn still(r: &mut Random, cells: usize) -> Record {
    let level = |_: &mut Random, i| (1_000_000 + 1_000 * i, 0);
    reach_of(r, cells, 1_000, level, [WALL, WALL])
}

/// The record with water only in the cells that are wet.
fn dried(mut record: Record, wet: &[bool]) -> Record {
    let c = &mut record.columns;
    for i in (0..wet.len()).filter(|&i| !wet[i]) {
        (c.depth[i], c.base[i], c.discharge[i], c.nutrient[i]) = (0, 0, 0, 0);
    }
    record
}

/// Water of 5 to 30 cm at 0.2 to 0.6 m/s in the cells that are wet, over a bed that falls by 1 mm a cell.
fn shallow(r: &mut Random, wet: &[bool]) -> Record {
    let (depth, velocity) = (r.between(60_000, 290_000), r.between(220, 580));
    let cell = |r: &mut Random, _| about(r, depth, 10_000, velocity);
    let kind = r.pick(&[WALL, OPEN]);
    dried(reach_of(r, wet.len(), 1_000, cell, [kind, kind]), wet)
}

/// 85 of 100 cells are dry, the others wet in stretches of 4 to 12, whose places are tossed.
pub fn stretches(r: &mut Random, cells: usize) -> Record {
    let mut left = (15 * cells + 50) / 100;
    let mut wet = vec![false; cells - left];
    while left > 0 {
        // what is left is no stretch too short
        let length = match left {
            ..=12 => left,
            _ => r.between(4, 12.min(left as i64 - 4)) as usize,
        };
        let place = dry_place(r, &wet);
        wet.splice(place..place, vec![true; length]);
        left -= length;
    }
    shallow(r, &wet)
}

/// A place with no wet cell at either side.
fn dry_place(r: &mut Random, wet: &[bool]) -> usize {
    loop {
        let place = r.below(wet.len() as u64 + 1) as usize;
        if !wet[place.saturating_sub(1)..wet.len().min(place + 1)].contains(&true) {
            return place;
        }
    }
}

/// Each cell is wet with a chance of 15 in 100, whatever its neighbours are.
pub fn scattered(r: &mut Random, cells: usize) -> Record {
    let wet: Vec<bool> = (0..cells).map(|_| r.below(100) < 15).collect();
    shallow(r, &wet)
}

/// A flow that fills the left half; the right one is dry.
pub fn half_dry(r: &mut Random, cells: usize) -> Record {
    let wet: Vec<bool> = (0..cells).map(|i| i < cells / 2).collect();
    dried(flow(r, cells, 1_000), &wet)
}
