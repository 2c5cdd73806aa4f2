//! A record as a chart along the reach.

use crate::chart::{Chart, Panel, Series};
use crate::record::Record;

const WATER: &str = "#2f7fc1";
const BED: &str = "#8a5a2b";
const DISCHARGE: &str = "#b3401f";
const CONCENTRATION: &str = "#2e7d4f";

/// Depth over bed, discharge and concentration.
pub fn chart(title: &str, record: &Record) -> Chart {
    Chart {
        title: title.into(),
        x_label: "distance from the left end (m)".into(),
        panels: vec![levels(record), discharge(record), concentration(record)],
    }
}

/// A level line over each cell, from its left to its right edge.
fn along(record: &Record, value: impl Fn(usize) -> f64) -> Vec<(f64, f64)> {
    let edge = |i: usize| i as f64 * record.cell_length as f64 / 1e3;
    let level = |i: usize| [(edge(i), value(i)), (edge(i + 1), value(i))];
    (0..record.cells()).flat_map(level).collect()
}

fn levels(record: &Record) -> Panel {
    let bed = |i: usize| record.bed[i] as f64 / 1e6;
    let surface = |i: usize| (record.bed[i] + record.depth[i] as i64) as f64 / 1e6;
    let water = Series::line("water surface", WATER, along(record, surface));
    let bed = Series::line("bed", BED, along(record, bed));
    Panel {
        title: "Depth over bed".into(),
        y_label: "level (m)".into(),
        series: Vec::new(),
        area: Some((water, bed)),
    }
}

fn discharge(record: &Record) -> Panel {
    let discharge = |i: usize| record.discharge[i] as f64 / 1e9;
    Panel {
        title: "Discharge, positive to the right".into(),
        y_label: "discharge (m²/s)".into(),
        series: vec![Series::line("", DISCHARGE, along(record, discharge))],
        area: None,
    }
}

/// In mg/l where there is at least one, else in µg/l. A dry cell has no concentration: its place stays empty.
fn concentration(record: &Record) -> Panel {
    let concentration = |i: usize| record.mass[i] as f64 / record.base[i] as f64;
    let points = along(record, concentration);
    let greatest = points.iter().map(|p| p.1).fold(0.0, f64::max);
    let (unit, size) = if greatest < 1e3 {
        ("µg/l", 1.0)
    } else {
        ("mg/l", 1e3)
    };
    let points = points.into_iter().map(|(x, c)| (x, c / size)).collect();
    Panel {
        title: "Concentration of the nutrient".into(),
        y_label: format!("concentration ({unit})"),
        series: vec![Series::line("", CONCENTRATION, points)],
        area: None,
    }
}
