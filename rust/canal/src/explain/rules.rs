//! The rules of single values, in words: what is wrong, or None.

use crate::limits::*;
use jemmyfern::Boundary;

pub fn wall(boundary: &Boundary) -> Vec<Option<String>> {
    vec![
        zero("depth of a wall", boundary.depth.into()),
        zero("discharge of a wall", boundary.discharge.into()),
        zero("concentration of a wall", boundary.concentration.into()),
    ]
}

pub fn open(boundary: &Boundary) -> Vec<Option<String>> {
    vec![
        zero("depth of an open boundary", boundary.depth.into()),
        zero("discharge of an open boundary", boundary.discharge.into()),
        concentration(boundary),
    ]
}

pub fn fed(boundary: &Boundary) -> Vec<Option<String>> {
    vec![
        outside(
            "depth of a fed boundary",
            boundary.depth.into(),
            (1, DEPTH_MOST.into()),
        ),
        discharge(boundary.discharge, boundary.depth),
        concentration(boundary),
    ]
}

fn concentration(boundary: &Boundary) -> Option<String> {
    let range = (0, CONCENTRATION_MOST.into());
    outside("concentration", boundary.concentration.into(), range)
}

pub fn mass(mass: u64, depth: u64) -> Option<String> {
    let most = depth * CONCENTRATION_MOST;
    let words =
        || format!("mass {mass} is above {most} ({CONCENTRATION_MOST} times the depth {depth})");
    (mass > most).then(words)
}

pub fn discharge(discharge: i64, depth: u64) -> Option<String> {
    let most = depth * VELOCITY_MOST;
    let (side, limit) = if discharge < 0 {
        ("below", -i128::from(most))
    } else {
        ("above", most.into())
    };
    let words = || {
        format!("discharge {discharge} is {side} {limit} ({VELOCITY_MOST} times the depth {depth})")
    };
    (discharge.unsigned_abs() > most).then(words)
}

pub fn outside(name: &str, value: i128, (least, most): (i128, i128)) -> Option<String> {
    if value < least {
        Some(format!("{name} {value} is below {least}"))
    } else if value > most {
        Some(format!("{name} {value} is above {most}"))
    } else {
        None
    }
}

pub fn zero(name: &str, value: i128) -> Option<String> {
    (value != 0).then(|| format!("{name} is {value}, not 0"))
}
