//! A water step ("A water step"); grounds 10 to 13 with 17 are found before anything is written.

use crate::flux::{interface, speed, Crossing, Water};
use crate::friction::{allowed, slowed};
use crate::outlet::{drawn_at, drawn_by_cell, draws, totals_sound, Outlet};
use crate::record::{
    check, ground, outflow, Book, Columns, End, Totals, DEEPEST, FASTEST, FED, WALL,
};
use crate::settling::{end_nutrient, move_shares, settled_list};

pub const MOST_T: u64 = 1_000;

#[derive(Clone, Copy, Debug, PartialEq, Eq)]
pub struct StepAnswer {
    pub refusal: u32,
    pub ends: [End; 2],
    pub book: Book,
    /// the step settled first
    pub settled: bool,
}

/// What an accepted step is about to do.
struct Plan {
    crossings: Vec<Crossing>,
    /// what the outlets of each cell draw
    drawing: Vec<u64>,
    settles: bool,
    book: Book,
    outlets: Vec<Outlet>,
}

/// One water step of t ms; `strickler` is the coefficient F, m^(1/3)/s, 0 for no friction.
pub fn step(
    c: &mut Columns,
    outlets: &mut [Outlet],
    x: u64,
    ends: [End; 2],
    book: Book,
    t: u64,
    strickler: u64,
) -> StepAnswer {
    match plan(c, outlets, x, &ends, &book, t, strickler) {
        Ok(plan) => {
            if plan.settles {
                move_shares(c, outlets, &ends);
            }
            carry_out(c, &plan.crossings, &plan.drawing, t, strickler);
            outlets.copy_from_slice(&plan.outlets);
            StepAnswer {
                refusal: 0,
                ends,
                book: plan.book,
                settled: plan.settles,
            }
        }
        Err(refusal) => StepAnswer {
            refusal,
            ends,
            book,
            settled: false,
        },
    }
}

fn plan(
    c: &Columns,
    outlets: &[Outlet],
    x: u64,
    ends: &[End; 2],
    book: &Book,
    t: u64,
    strickler: u64,
) -> Result<Plan, u32> {
    let n = check(c, outlets, x, ends, &[], book)?;
    ground(10, (1..=MOST_T).contains(&t))?;
    // "another value is 17, checked after 10"
    ground(17, allowed(strickler))?;

    let cells = cell_waters(c);
    let beyond = end_waters(ends, &cells);
    // "CFL: t·(|u|+a) ≤ 1,000·X for each cell and each fed end"; a mirror or a copy has its
    // cell's |u|+a, so both ends may be looked at whatever their kind
    let slow = |w: &Water| t * w.reach() <= 1_000 * x;
    ground(11, cells.iter().all(slow) && beyond.iter().all(slow))?;

    let crossings = crossings(&cells, &beyond, t, x);
    let draws = draws(outlets, |i| can_give(c, &crossings, i));
    let drawing = drawn_by_cell(outlets, &draws, n);
    // "Drawing precedes [...] the depth check."
    let depth = |i: usize| new_depth(c, &crossings, &drawing, i);
    ground(12, (0..n).all(|i| depth(i) <= DEEPEST as i64))?;

    let settles = !keeps_sums(c, outlets, &crossings, &drawing);
    let mut gains = end_water_gains(crossings[0].water, crossings[n].water);
    if settles {
        let nutrient = end_nutrient(c, ends);
        gains.left.nutrient_in = nutrient.left.nutrient_in;
        gains.left.nutrient_out = nutrient.left.nutrient_out;
        gains.right.nutrient_in = nutrient.right.nutrient_in;
        gains.right.nutrient_out = nutrient.right.nutrient_out;
    }
    let book = book.gain(&gains)?;
    let outlets = list_after(c, outlets, &draws, settles);
    ground(13, totals_sound(&outlets))?;
    Ok(Plan {
        crossings,
        drawing,
        settles,
        book,
        outlets,
    })
}

/// The list after a step that gave each outlet what it draws. "An outlet's water goes into its
/// total at each step, its nutrient at the settling."
fn list_after(c: &Columns, outlets: &[Outlet], draws: &[u64], settles: bool) -> Vec<Outlet> {
    let old = if settles {
        settled_list(c, outlets)
    } else {
        outlets.to_vec()
    };
    (old.iter().zip(draws))
        .map(|(outlet, &given)| outlet.having(given))
        .collect()
}

/// Speed and wave speed of each cell, found once.
fn cell_waters(c: &Columns) -> Vec<Water> {
    (c.bed.iter().zip(&c.depth).zip(&c.discharge))
        .map(|((&z, &h), &q)| Water::new(z, h, q))
        .collect()
}

/// "An end has the bottom of its cell. A wall mirrors it (h, speed −u), an open end copies it,
/// a fed end uses its own depth and speed."
fn end_water(end: &End, cell: Water) -> Water {
    match end.kind {
        WALL => Water {
            speed: -cell.speed,
            ..cell
        },
        FED => Water::new(cell.bed, end.depth, end.discharge),
        _ => cell,
    }
}

fn end_waters(ends: &[End; 2], cells: &[Water]) -> [Water; 2] {
    [
        end_water(&ends[0], cells[0]),
        end_water(&ends[1], cells[cells.len() - 1]),
    ]
}

/// N, P and S at interfaces 0..n, interface i left of cell i.
fn crossings(cells: &[Water], beyond: &[Water; 2], t: u64, x: u64) -> Vec<Crossing> {
    let mut found = Vec::with_capacity(cells.len() + 1);
    let mut left = beyond[0];
    for &right in cells.iter().chain(&beyond[1..]) {
        found.push(interface(t, x, left, right));
        left = right;
    }
    found
}

/// What each cell of a sound record can give in a step of t that meets CFL.
pub fn available(c: &Columns, x: u64, ends: &[End; 2], t: u64) -> Vec<u64> {
    let cells = cell_waters(c);
    let crossings = crossings(&cells, &end_waters(ends, &cells), t, x);
    (0..cells.len())
        .map(|i| can_give(c, &crossings, i))
        .collect()
}

/// "What a cell can give is its old depth less its own two outgoing W." Towards a wall too: there
/// W of the mirror makes N 0, not the cell's own W. CFL keeps both W together within h.
fn can_give(c: &Columns, crossings: &[Crossing], i: usize) -> u64 {
    // the cell is the right side of its left interface
    c.depth[i] - crossings[i].from_right - crossings[i + 1].from_left
}

/// "h' = h + N(left) − N(right)", less what the cell's outlets draw
#[inline]
fn new_depth(c: &Columns, crossings: &[Crossing], drawing: &[u64], i: usize) -> i64 {
    c.depth[i] as i64 + crossings[i].water - crossings[i + 1].water - drawing[i] as i64
}

/// "add N to c. If max(c(i+1),0) + max(−c(i),0) ≤ b in each cell, keep the sums."
/// "Drawn water counts as outflow in the settling test", this step's with the old.
fn keeps_sums(c: &Columns, outlets: &[Outlet], crossings: &[Crossing], drawing: &[u64]) -> bool {
    let sum = |i: usize| c.carried[i] + crossings[i].water;
    let drawn = |i: usize| drawn_at(outlets, i) as u64 + drawing[i];
    (0..c.base.len()).all(|i| outflow(sum(i), sum(i + 1)) + drawn(i) <= c.base[i])
}

/// "End water goes into the book at each step, by the sign of N."
fn end_water_gains(left: i64, right: i64) -> Book {
    Book {
        left: Totals {
            water_in: left.max(0) as u64,
            water_out: (-left).max(0) as u64,
            ..Totals::default()
        },
        right: Totals {
            water_in: (-right).max(0) as u64,
            water_out: right.max(0) as u64,
            ..Totals::default()
        },
    }
}

/// Writes h', q' and the carried water. After a settling c is 0, so adding N makes it N.
fn carry_out(c: &mut Columns, crossings: &[Crossing], drawing: &[u64], t: u64, strickler: u64) {
    for i in 0..c.depth.len() {
        let (left, right) = (&crossings[i], &crossings[i + 1]);
        // CFL keeps both outflows together within h and outlets draw what they leave, so h' ≥ 0
        let depth = new_depth(c, crossings, drawing, i) as u64;
        let old_speed = speed(c.depth[i], c.discharge[i]);
        // "q' = q + P(left) − P(right) + S(own h* at the right) − S(own h* at the left)":
        // the cell is the left side of its right interface
        let pushed = c.discharge[i] + left.push - right.push + right.still_left - left.still_right;
        // "after the push and before the cut"
        let slowed = slowed(pushed, depth, old_speed, t, strickler);
        // "then moved to the nearest value in ±8,000·h'"
        let most = (FASTEST * depth) as i64;
        c.discharge[i] = slowed.clamp(-most, most);
        c.depth[i] = depth;
    }
    for (carried, crossing) in c.carried.iter_mut().zip(crossings) {
        *carried += crossing.water;
    }
}
