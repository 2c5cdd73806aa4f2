//! What a run leaves along the reach, in the report's units, and how far that is from the exact solution.

use crate::cases::{self, Case, LEFT, RIGHT};
use crate::exact::{DamBreak, GRAVITY};

/// A number for each cell.
#[derive(Clone, Debug)]
pub struct Profile {
    /// m
    pub depth: Vec<f64>,
    /// m^2/s
    pub discharge: Vec<f64>,
    /// the report's, without unit
    pub concentration: Vec<f64>,
}

/// Points of a cell over which the exact solution is averaged.
const SAMPLES: u32 = 64;

/// Halfway between the concentrations behind the dam and before it.
fn mean() -> f64 {
    (cases::reports(LEFT) + cases::reports(RIGHT)) / 2.0
}

impl Profile {
    pub fn greatest_concentration(&self) -> f64 {
        self.concentration.iter().copied().fold(0.0, f64::max)
    }

    /// The last cell whose concentration is not under the mean of both sides: the pollutant's jump is between it and the next.
    fn jump(&self) -> usize {
        let last = self.concentration.iter().rposition(|&c| c >= mean());
        last.expect("the concentration behind the dam stays")
    }

    /// Where the concentration is the mean of both sides, between two centres; m.
    pub fn front(&self, case: &Case) -> f64 {
        let cell = self.jump();
        let (behind, before) = (self.concentration[cell], self.concentration[cell + 1]);
        let share = (behind - mean()) / (behind - before);
        case.metres(cell) + share * case.cell_metres()
    }

    /// The Froude number at the pollutant's jump.
    pub fn froude(&self) -> f64 {
        let cell = self.jump();
        let (h, q) = (self.depth[cell], self.discharge[cell]);
        q / h / (GRAVITY * h).sqrt()
    }

    /// L1 error of the depth: the mean of |computed - exact| over the reach, in mm.
    pub fn depth_error(&self, case: &Case, exact: &DamBreak) -> f64 {
        let t = case.seconds();
        let length = case.cell_metres() * case.cells() as f64;
        1e3 * distance(case, &self.depth, |x| exact.state(x, t).0) / length
    }

    /// L1 error of the concentration over the jump at the dam, in m: so much of the reach has the concentration of the other side.
    pub fn concentration_error(&self, case: &Case, exact: &DamBreak) -> f64 {
        let t = case.seconds();
        let there = |x: f64| case.concentration_before(exact.origin(x, t));
        distance(case, &self.concentration, there) / (cases::reports(LEFT) - cases::reports(RIGHT))
    }
}

/// The integral of |computed - exact| over the reach; the exact value is averaged over each cell.
fn distance(case: &Case, computed: &[f64], exact: impl Fn(f64) -> f64) -> f64 {
    let cell_length = case.cell_metres();
    let of_cell = |(cell, value): (usize, &f64)| {
        let left = case.metres(cell) - cell_length / 2.0;
        let sample = |k: u32| exact(left + cell_length * (f64::from(k) + 0.5) / f64::from(SAMPLES));
        let mean = (0..SAMPLES).map(sample).sum::<f64>() / f64::from(SAMPLES);
        (value - mean).abs()
    };
    computed.iter().enumerate().map(of_cell).sum::<f64>() * cell_length
}
