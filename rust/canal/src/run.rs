//! A record stepped for some canal time.

use crate::record::Record;
use jemmyfern::{Greatest, Reach, Refusal};
use std::cmp::Reverse;
use std::iter::successors;

/// What a run made.
#[derive(Clone, Copy, Debug, Default, PartialEq, Eq)]
pub struct Made {
    /// ms of canal time
    pub time: u64,
    pub steps: u64,
    /// the last one, at the end of the run, included
    pub transports: u64,
}

/// Where a refused call stopped a run. The record is as it was before that call.
#[derive(Clone, Copy, Debug, PartialEq, Eq)]
pub struct Stopped {
    pub refusal: Refusal,
    pub made: Made,
    /// the step that was refused, in ms; 0 if another call was
    pub step: u64,
    /// the greatest step that the record allowed, if that was asked for
    pub greatest: Option<Greatest>,
}

/// Steps for `time` ms and transports. The steps are of `step` ms, or the greatest that the record allows at each; the last one is cut to end the
/// run exactly. The bed has this Strickler coefficient, or no friction where it is 0. `progress` is told what has been made after each step.
pub fn run(
    record: &mut Record,
    time: u64,
    step: Option<u64>,
    strickler: u64,
    mut progress: impl FnMut(&Made),
) -> Result<Made, Stopped> {
    record.with(|reach| {
        let mut made = Made::default();
        while made.time < time {
            let t = next_step(reach, step, made)?.min(time - made.time);
            let stepped = reach.step_with_friction(t, strickler);
            let stepped = stepped.map_err(|refusal| Stopped {
                refusal,
                made,
                step: t,
                greatest: reach.greatest_step().ok(),
            })?;
            made.time += t;
            made.steps += 1;
            made.transports += u64::from(stepped.transported);
            progress(&made);
        }
        reach.transport().map_err(|refusal| at(refusal, made))?;
        made.transports += 1;
        Ok(made)
    })
}

/// The cell that would be deepest after a step of `step` ms, which was refused. What crosses its interfaces grows in proportion to the time, and
/// what its outlets draw does not, so a shorter step that is accepted tells it; None if even 1 ms is refused. Friction has no part in the depths of
/// a step.
pub fn fills_most(record: &Record, step: u64) -> Option<usize> {
    let mut shorter = successors(Some(step / 2), |t| Some(t / 2)).take_while(|&t| t > 0);
    let (t, after) = shorter.find_map(|t| {
        let mut tried = record.clone();
        tried.with(|reach| reach.step(t)).ok()?;
        Some((t, tried))
    })?;
    let drawn = |i: usize| -> i128 {
        let outlets = after.outlets.iter().zip(&record.outlets);
        let here = outlets.filter(|(o, _)| o.cell == i as u64);
        here.map(|(o, old)| i128::from(o.water - old.water)).sum()
    };
    // t times the depth after the whole step
    let depth = |&i: &usize| {
        let (before, after) = (i128::from(record.depth[i]), i128::from(after.depth[i]));
        let crossed = after - before + drawn(i);
        (before - drawn(i)) * i128::from(t) + crossed * i128::from(step)
    };
    (0..record.cells()).min_by_key(|i| Reverse(depth(i)))
}

fn next_step(reach: &Reach<'_>, step: Option<u64>, made: Made) -> Result<u64, Stopped> {
    match step {
        Some(t) => Ok(t),
        None => match reach.greatest_step() {
            Ok(greatest) => Ok(greatest.time),
            Err(refusal) => Err(at(refusal, made)),
        },
    }
}

fn at(refusal: Refusal, made: Made) -> Stopped {
    Stopped {
        refusal,
        made,
        step: 0,
        greatest: None,
    }
}
