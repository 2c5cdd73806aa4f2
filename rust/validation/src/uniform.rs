//! Uniform flow down a slope: with friction of the bed water comes by itself to the depth and velocity of Strickler's formula. Report 4529 has
//! neither friction nor a slope, so metres and seconds are the reach's own here.

use crate::exact::GRAVITY;
use canal::record::Record;
use canal::run::run;
use jemmyfern::{Boundary, Refusal};
use std::ops::Range;

/// mm
pub const LENGTH: u64 = 3_000_000;
pub const CELL_LENGTH: u64 = 10_000;

/// ms; what passes is measured over the last of them
pub const TIME: u64 = 5_400_000;
const MEASURED: u64 = 600_000;

/// Where the flow is looked at, in mm: past the first cells, and far above the open end, before which water backs up.
const WHERE: Range<u64> = 600_000..900_000;

/// Water let in at the head of a slope and out at an open end. The depth stands for the hydraulic radius: a wide bed, no side walls.
#[derive(Clone, Copy, Debug)]
pub struct Flow {
    /// F, m^(1/3)/s
    pub strickler: u64,
    /// per mille: micrometres per mm
    pub per_mille: u64,
    /// fed at the head, thousandths of m^2/s
    pub fed: u64,
}

/// Each slope with three beds, from earth to concrete; deep water first.
pub fn flows() -> Vec<Flow> {
    let mut flows = Vec::new();
    for fed in [1_000, 200] {
        for per_mille in [1, 3] {
            flows.extend([30, 50, 80].map(|strickler| Flow {
                strickler,
                per_mille,
                fed,
            }));
        }
    }
    flows
}

impl Flow {
    pub fn slope(&self) -> f64 {
        self.per_mille as f64 / 1e3
    }

    /// What is fed, m^2/s.
    pub fn fed(&self) -> f64 {
        self.fed as f64 / 1e3
    }

    /// Strickler's formula: the velocity of uniform flow of this depth; m, m/s.
    pub fn velocity(&self, depth: f64) -> f64 {
        self.strickler as f64 * depth.powf(2.0 / 3.0) * self.slope().sqrt()
    }

    /// The depth at which uniform flow has this discharge: m, m^2/s.
    pub fn depth(&self, discharge: f64) -> f64 {
        (discharge / self.velocity(1.0)).powf(0.6)
    }

    /// The depths of slower than critical flow that ends in this depth, cell by cell: the equation of gradually varied flow, followed upstream.
    pub fn backwater(&self, discharge: f64, end: f64, cells: usize, cell_metres: f64) -> Vec<f64> {
        const PIECES: u32 = 100;
        let rise = |h: f64| {
            let velocity = discharge / h;
            let slope = self.slope() * (1.0 - (velocity / self.velocity(h)).powi(2));
            slope / (1.0 - velocity * velocity / (GRAVITY * h))
        };
        let mut depths = vec![end];
        for _ in 1..cells {
            let mut h = depths[depths.len() - 1];
            for _ in 0..PIECES {
                h -= rise(h) * cell_metres / f64::from(PIECES);
            }
            depths.push(h);
        }
        depths.reverse();
        depths
    }

    /// Water at rest, so many times as deep as it will be; fed with the depth and discharge of theory.
    pub fn start(&self, cell_length: u64, times: f64) -> Record {
        let micrometres = |metres: f64| (metres * 1e6).round() as u64;
        let depth = self.depth(self.fed());
        let mut record = Record::new((LENGTH / cell_length) as usize);
        record.cell_length = cell_length;
        let fed = Boundary::fed(micrometres(depth), self.fed as i64 * 1_000_000, 0);
        record.boundaries = [fed, Boundary::open(0)];
        for (cell, bed) in record.bed.iter_mut().enumerate() {
            *bed = -((self.per_mille * cell_length) as i64 * cell as i64);
        }
        record.depth.fill(micrometres(depth * times));
        record.base.clone_from(&record.depth);
        record
    }

    /// What comes of water a fifth too deep.
    pub fn steady(&self, cell_length: u64) -> Result<Steady, Refusal> {
        self.after(self.start(cell_length, 1.2), TIME)
    }

    /// What is there after so many ms.
    pub fn after(&self, mut record: Record, time: u64) -> Result<Steady, Refusal> {
        let mut pass = |time: u64| {
            let before = record.ledger.left;
            let stopped = run(&mut record, time, None, self.strickler, |_| ()).err();
            let after = record.ledger.left;
            let water = (after.water_in - before.water_in) as f64
                - (after.water_out - before.water_out) as f64;
            stopped.map_or(Ok(water / 1e3), |s| Err(s.refusal))
        };
        pass(time - MEASURED)?;
        // micrometres by mm, over ms
        let passes = pass(MEASURED)? * record.cell_length as f64 / 1e3 / MEASURED as f64;
        Ok(Steady {
            flow: *self,
            cell_length: record.cell_length,
            passes,
            depth: record.depth.iter().map(|&h| h as f64 / 1e6).collect(),
            discharge: record.discharge.iter().map(|&q| q as f64 / 1e9).collect(),
        })
    }
}

/// The reach after the run; m, m^2/s.
#[derive(Clone, Debug)]
pub struct Steady {
    pub flow: Flow,
    /// mm
    pub cell_length: u64,
    /// what the ledger says came in
    pub passes: f64,
    pub depth: Vec<f64>,
    pub discharge: Vec<f64>,
}

impl Steady {
    pub fn cell_metres(&self) -> f64 {
        self.cell_length as f64 / 1e3
    }

    fn mean(&self, column: &[f64]) -> f64 {
        let cells =
            (WHERE.start / self.cell_length) as usize..(WHERE.end / self.cell_length) as usize;
        let cells = &column[cells];
        cells.iter().sum::<f64>() / cells.len() as f64
    }

    /// The depth where the flow is looked at.
    pub fn mean_depth(&self) -> f64 {
        self.mean(&self.depth)
    }

    /// The velocity there.
    pub fn mean_velocity(&self) -> f64 {
        self.mean(&self.discharge) / self.mean_depth()
    }

    pub fn froude(&self) -> f64 {
        self.mean_velocity() / (GRAVITY * self.mean_depth()).sqrt()
    }

    /// How far depth times velocity is from what passes.
    pub fn discharge_off(&self) -> f64 {
        self.mean(&self.discharge) / self.passes - 1.0
    }

    /// How far the depth is from that of uniform flow with the discharge that passes.
    pub fn depth_off(&self) -> f64 {
        self.mean_depth() / self.flow.depth(self.passes) - 1.0
    }

    /// How far the velocity is from Strickler's at the computed depth.
    pub fn velocity_off(&self) -> f64 {
        self.mean_velocity() / self.flow.velocity(self.mean_depth()) - 1.0
    }

    /// The part of it that comes from friction of the depth in whole centimetres and of the whole root r.
    pub fn centimetres(&self) -> f64 {
        let part = |&h: &f64| {
            let r = (1e3 * (100.0 * h).floor().powi(4)).cbrt() + 1e-9;
            // r is 10 k^(4/3)
            let metres = (r.floor() / 10.0).powf(0.75) / 100.0;
            (metres / h).powf(2.0 / 3.0)
        };
        self.mean(&self.depth.iter().map(part).collect::<Vec<_>>()) - 1.0
    }

    /// The part that comes from a bed in steps: a cell is pushed by the step at its upper side, over which the mean depth is less by half of it.
    pub fn steps(&self) -> f64 {
        let step = self.flow.slope() * self.cell_metres();
        (1.0 - step / 2.0 / self.mean_depth()).sqrt() - 1.0
    }
}
