//! The dam breaks once more without the library: the same scheme on floating numbers in the report's own metres and seconds, nothing rounded.
//! It tells which differences from the report come from whole numbers, and which from a choice that the report leaves open.

use crate::cases::{self, Case};
use crate::profile::Profile;

/// Which depth the outflow since the last transport step is held against.
#[derive(Clone, Copy, Debug, PartialEq, Eq)]
pub enum Against {
    /// the depth at that transport step
    Base,
    /// the depth of the moment, as formula (26) prints it
    Running,
}

/// The choices that the report leaves open.
#[derive(Clone, Copy, Debug)]
pub struct Choices {
    pub gravity: f64,
    pub against: Against,
    /// the last step is cut to end at the end time
    pub cut_last: bool,
}

#[derive(Clone, Debug)]
pub struct Unrounded {
    pub hydrodynamic: u32,
    pub transport: u32,
    /// of all tests that asked for a transport step the narrowest: outflow over the depth that it was held against
    pub narrowest: f64,
    pub profile: Profile,
}

/// Water and discharge that cross an interface rightwards in a step.
type Flux = (f64, f64);

struct Reach {
    gravity: f64,
    cell_length: f64,
    h: Vec<f64>,
    q: Vec<f64>,
    mass: Vec<f64>,
    base: Vec<f64>,
    carried: Vec<f64>,
}

/// Runs a case over a flat bed between walls.
pub fn run(case: &Case, choices: Choices) -> Unrounded {
    let mut reach = Reach::new(case, choices.gravity);
    let (mut hydrodynamic, mut transport, mut narrowest) = (0, 0, f64::INFINITY);
    let (mut time, end_time) = (0.0, case.seconds());
    while time < end_time {
        let mut step = reach.greatest_step();
        let next = time + step;
        if choices.cut_last && next >= end_time {
            step = end_time - time;
            time = end_time;
        } else {
            time = next;
        }
        hydrodynamic += 1;
        if let Some(outflow) = reach.step(step, choices.against) {
            transport += 1;
            narrowest = outflow.min(narrowest);
        }
    }
    reach.transport();
    Unrounded {
        hydrodynamic,
        transport: transport + 1,
        narrowest,
        profile: reach.profile(),
    }
}

impl Reach {
    fn new(case: &Case, gravity: f64) -> Reach {
        let h: Vec<f64> = case.depth.iter().map(|&h| h as f64 / 1e6).collect();
        let cells = h.iter().zip(&case.concentration);
        Reach {
            gravity,
            cell_length: case.cell_metres(),
            q: vec![0.0; h.len()],
            mass: cells.map(|(h, &c)| h * cases::reports(c)).collect(),
            base: h.clone(),
            carried: vec![0.0; h.len() + 1],
            h,
        }
    }

    fn profile(&self) -> Profile {
        let cells = self.mass.iter().zip(&self.base);
        Profile {
            depth: self.h.clone(),
            discharge: self.q.clone(),
            concentration: cells.map(|(mass, base)| mass / base).collect(),
        }
    }

    /// Of the box function.
    fn wave_speed(&self, cell: usize) -> f64 {
        (1.5 * self.gravity * self.h[cell]).sqrt()
    }

    fn velocity(&self, cell: usize) -> f64 {
        self.q[cell] / self.h[cell]
    }

    fn greatest_step(&self) -> f64 {
        let speed = |cell| self.velocity(cell).abs() + self.wave_speed(cell);
        self.cell_length / (0..self.h.len()).map(speed).fold(0.0, f64::max)
    }

    /// What a cell sends over its right side, or over its left one if `sign` is -1.
    fn sent(&self, cell: usize, sign: f64, step: f64) -> Flux {
        let (u, a) = (sign * self.velocity(cell), self.wave_speed(cell));
        let (fast, slow) = ((u + a).max(0.0), (u - a).max(0.0));
        let share = self.h[cell] * step / self.cell_length;
        (
            share * (fast.powi(2) - slow.powi(2)) / (4.0 * a),
            share * (fast.powi(3) - slow.powi(3)) / (6.0 * a),
        )
    }

    fn fluxes(&self, step: f64) -> Vec<Flux> {
        let last = self.h.len() - 1;
        // a wall mirrors its cell: no water passes, and the cell's own momentum comes back
        let mut all = vec![(0.0, 2.0 * self.sent(0, -1.0, step).1)];
        for cell in 0..last {
            let (l, r) = (self.sent(cell, 1.0, step), self.sent(cell + 1, -1.0, step));
            all.push((l.0 - r.0, l.1 + r.1));
        }
        all.push((0.0, 2.0 * self.sent(last, 1.0, step).1));
        all
    }

    /// A water step. If the pollutant has to move first, it answers the greatest outflow over the depth that it is held against.
    fn step(&mut self, step: f64, against: Against) -> Option<f64> {
        let fluxes = self.fluxes(step);
        let both = self.carried.iter().zip(&fluxes);
        let sums: Vec<f64> = both.map(|(c, n)| c + n.0).collect();
        let held = match against {
            Against::Base => &self.base,
            Against::Running => &self.h,
        };
        let outflow = |cell: usize| sums[cell + 1].max(0.0) + (-sums[cell]).max(0.0);
        let shares = (0..held.len()).map(|cell| outflow(cell) / held[cell]);
        let greatest = shares.fold(0.0, f64::max);
        let must_move = greatest > 1.0;
        if must_move {
            self.transport();
            self.carried = fluxes.iter().map(|n| n.0).collect();
        } else {
            self.carried = sums;
        }
        for cell in 0..self.h.len() {
            self.h[cell] += fluxes[cell].0 - fluxes[cell + 1].0;
            self.q[cell] += fluxes[cell].1 - fluxes[cell + 1].1;
        }
        must_move.then_some(greatest)
    }

    /// Moves the pollutant with the carried water, upwind.
    fn transport(&mut self) {
        let last = self.mass.len() - 1;
        let sent = |(i, &water): (usize, &f64)| {
            // nothing is carried through a wall, so any cell will do there
            let from = if water > 0.0 { i - 1 } else { i.min(last) };
            water * self.mass[from] / self.base[from]
        };
        let moved: Vec<f64> = self.carried.iter().enumerate().map(sent).collect();
        for (cell, mass) in self.mass.iter_mut().enumerate() {
            *mass += moved[cell] - moved[cell + 1];
        }
        self.base.clone_from(&self.h);
        self.carried.fill(0.0);
    }
}
