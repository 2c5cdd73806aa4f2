//! A case run with the library, by its greatest step each time.

use crate::cases::{Case, CONCENTRATION_ONE};
use crate::profile::Profile;
use canal::record::Record;
use jemmyfern::Refusal;

/// When the pollutant moves.
#[derive(Clone, Copy, Debug, PartialEq, Eq)]
pub enum Transport {
    /// where the library asks for it, and at the end: the report's two time steps
    WhenNeeded,
    /// after each water step: the report's upwind kinetic scheme, which it compares with
    EachStep,
}

/// How a run goes.
#[derive(Clone, Copy, Debug)]
pub struct Way {
    pub transport: Transport,
    /// the last step is cut to end at the end time
    pub cut_last: bool,
}

pub const TWO_STEPS: Way = Way {
    transport: Transport::WhenNeeded,
    cut_last: true,
};
pub const UPWIND: Way = Way {
    transport: Transport::EachStep,
    cut_last: true,
};

/// A run that came to its end time, all mass transported.
#[derive(Clone, Debug)]
pub struct Outcome {
    pub start: Record,
    pub end: Record,
    pub hydrodynamic: u32,
    pub transport: u32,
}

impl Outcome {
    /// What is there at the end; every case keeps all its cells wet.
    pub fn profile(&self) -> Profile {
        let end = &self.end;
        let masses = end.mass.iter().zip(&end.base);
        Profile {
            depth: end.depth.iter().map(|&h| h as f64 / 1e6).collect(),
            discharge: end.discharge.iter().map(|&q| q as f64 / 1e9).collect(),
            concentration: masses
                .map(|(&m, &b)| m as f64 / b as f64 / CONCENTRATION_ONE as f64)
                .collect(),
        }
    }
}

/// The case as a record between walls.
pub fn record(case: &Case) -> Record {
    let mut record = Record::new(case.cells());
    record.cell_length = case.cell_length;
    record.bed.clone_from(&case.bed);
    record.depth.clone_from(&case.depth);
    record.base.clone_from(&case.depth);
    for (cell, mass) in record.mass.iter_mut().enumerate() {
        *mass = case.concentration[cell] * case.depth[cell];
    }
    record
}

pub fn run(case: &Case, way: Way) -> Result<Outcome, Refusal> {
    let start = record(case);
    let mut outcome = Outcome {
        end: start.clone(),
        start,
        hydrodynamic: 0,
        transport: 0,
    };
    let mut time = 0;
    while time < case.end_time {
        let most = if way.cut_last {
            case.end_time - time
        } else {
            u64::MAX
        };
        time += outcome.step(most, way.transport)?;
    }
    if way.transport == Transport::WhenNeeded {
        outcome.end.with(|reach| reach.transport())?;
        outcome.transport += 1;
    }
    Ok(outcome)
}

impl Outcome {
    /// One water step, the greatest that takes at most so many ms; answers its length.
    fn step(&mut self, most: u64, transport: Transport) -> Result<u64, Refusal> {
        let (time, transported) = self.end.with(|reach| {
            let time = reach.greatest_step()?.time.min(most);
            let stepped = reach.step(time)?;
            if transport == Transport::EachStep {
                reach.transport()?;
            }
            Ok((time, stepped.transported))
        })?;
        self.hydrodynamic += 1;
        self.transport += u32::from(transported || transport == Transport::EachStep);
        Ok(time)
    }
}
