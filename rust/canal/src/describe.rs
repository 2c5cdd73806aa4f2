//! What an open sheet holds, in words.

use crate::balance::Held;
use crate::layout::Header;
use crate::record::Record;
use crate::units::*;
use jemmyfern::{Boundary, Greatest, Refusal, CELLS_MOST, TIME_STEP_MOST};

/// The lines to say of a sheet that opened as `record`.
pub fn describe(sheet: &[u8], record: &mut Record) -> Result<String, Refusal> {
    let greatest = record.with(|reach| reach.greatest_step())?;
    let [left, right] = &record.boundaries;
    let held = Held::by(record);
    let length = record.cell_length;
    let lines = [
        size(sheet, record),
        format!("left boundary  {}", boundary(left)),
        format!("right boundary {}", boundary(right)),
        format!("bed level      {}", bed(record)),
        format!("depth          {}", depth(record)),
        format!("discharge      {}", discharge(record)),
        format!("concentration  {}", concentration(record)),
        format!(
            "water held     {} µm of a cell = {} m³ per metre of width",
            held.water,
            cubic_metres(held.water, length)
        ),
        format!(
            "mass held      {} grains = {} g per metre of width",
            held.mass,
            grams(held.mass, length)
        ),
        format!("greatest step  {}", greatest_step(&greatest, record)),
    ];
    Ok(lines.join("\n") + "\n")
}

fn size(sheet: &[u8], record: &Record) -> String {
    let cells = counted(record.cells() as u64, "cell");
    let length = record.cell_length;
    let whole = metres_of_mm(length * record.cells() as u64);
    let bytes = sheet.len();
    let written = Header::read(sheet).is_some_and(|h| h.in_writers_order());
    let order = if written {
        "the writer's order"
    } else {
        "another order than the writer's"
    };
    format!("{cells} of {length} mm (at most {CELLS_MOST}), {whole} m in all; {bytes} bytes, columns in {order}")
}

fn boundary(boundary: &Boundary) -> String {
    let concentration = boundary.concentration;
    match boundary.kind {
        0 => "wall".into(),
        1 => format!("open; water coming in has {concentration} µg/l"),
        _ => {
            let (depth, discharge) = (boundary.depth, boundary.discharge);
            let (m, m2) = (
                metres_of_um(depth.into()),
                square_metres_per_second(discharge),
            );
            format!("fed with depth {depth} µm ({m} m), discharge {discharge} µm·mm/s ({m2} m²/s), {concentration} µg/l")
        }
    }
}

/// The least and the greatest; 0 of no values.
fn span<T: Copy + Ord + Default>(values: impl Iterator<Item = T> + Clone) -> (T, T) {
    let (least, greatest) = (values.clone().min(), values.max());
    (least.unwrap_or_default(), greatest.unwrap_or_default())
}

fn bed(record: &Record) -> String {
    let (low, high) = span(record.bed.iter().copied());
    let metres = |z: i64| metres_of_um(z.into());
    format!("{low} to {high} µm ({} to {} m)", metres(low), metres(high))
}

fn depth(record: &Record) -> String {
    let (low, high) = span(record.depth.iter().copied());
    let metres = |h: u64| metres_of_um(h.into());
    let dry = record.depth.iter().filter(|&&h| h == 0).count();
    let dry = match dry {
        0 => String::new(),
        some => format!("; {} dry", counted(some as u64, "cell")),
    };
    format!(
        "{low} to {high} µm ({} to {} m){dry}",
        metres(low),
        metres(high)
    )
}

fn discharge(record: &Record) -> String {
    let (low, high) = span(record.discharge.iter().copied());
    let (from, to) = (
        square_metres_per_second(low),
        square_metres_per_second(high),
    );
    format!("{low} to {high} µm·mm/s ({from} to {to} m²/s)")
}

/// Of the wet cells, in whole thousandths of a microgram per litre.
fn concentration(record: &Record) -> String {
    let cells = record.mass.iter().zip(&record.base);
    let wet = cells.filter(|(_, &b)| b > 0);
    let thousandths = wet.map(|(&m, &b)| i128::from(m) * 1000 / i128::from(b));
    let (low, high) = span(thousandths);
    format!("{} to {} µg/l", scaled(low, 3), scaled(high, 3))
}

/// Slow water does not set the step: the greatest that any record allows does.
fn greatest_step(greatest: &Greatest, record: &Record) -> String {
    let time = greatest.time;
    let place = place(greatest.place, record.cells());
    if time < TIME_STEP_MOST {
        format!("{time} ms, set by {place}")
    } else if all_dry(record) {
        format!("{time} ms, the longest allowed (all dry)")
    } else {
        format!("{time} ms, the longest allowed (fastest: {place})")
    }
}

/// No water in any cell, nor at a fed boundary, which has its own.
fn all_dry(record: &Record) -> bool {
    let fed = |boundary: &Boundary| boundary.kind == 2;
    record.depth.iter().all(|&h| h == 0) && !record.boundaries.iter().any(fed)
}

/// A place of the greatest step in words.
pub fn place(place: usize, cells: usize) -> String {
    match place {
        0 => "the left boundary".into(),
        p if p <= cells => format!("cell {}", p - 1),
        _ => "the right boundary".into(),
    }
}
