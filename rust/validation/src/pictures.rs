//! The pictures of docs/VALIDATION.md. Lengths, times and concentrations are the report's, and those of the slope its own.

use crate::cases::{self, Case, MESH, PEAK_EDGE, PEAK_ROW, TABLE_1};
use crate::exact::DamBreak;
use crate::run::{run, TWO_STEPS, UPWIND};
use crate::tables::depth_name;
use crate::uniform::{self, CELL_LENGTH};
use canal::chart::{Chart, Panel, Series};
use jemmyfern::Refusal;

const EXACT: &str = "#222222";
const OURS: &str = "#1f6fb4";
const OTHER: &str = "#d1660f";
const BEFORE: &str = "#999999";
const BED: &str = "#8a6d4b";
const THIRD: &str = "#2e7d4f";

type Point = (f64, f64);

/// Each picture with the name of its file.
pub fn all() -> Result<Vec<(String, Chart)>, Refusal> {
    let mut pictures = Vec::new();
    for row in TABLE_1 {
        let name = format!("dam-{}.svg", depth_name(row.right_depth));
        pictures.push((name, dam_break(row.right_depth)?));
    }
    pictures.push(("fronts.svg".to_string(), fronts()?));
    pictures.push(("peak.svg".to_string(), peak()?));
    pictures.push(("lake.svg".to_string(), lake()?));
    pictures.push(("slope.svg".to_string(), slope()?));
    Ok(pictures)
}

fn panel(title: &str, y_label: &str, series: Vec<Series>) -> Panel {
    Panel {
        title: title.to_string(),
        y_label: y_label.to_string(),
        series,
        area: None,
    }
}

/// A value of each cell, as a level from its left edge to its right.
fn stairs(name: &str, color: &'static str, case: &Case, values: &[f64]) -> Series {
    let half = case.cell_metres() / 2.0;
    let level = |(cell, &y): (usize, &f64)| {
        let x = case.metres(cell);
        [(x - half, y), (x + half, y)]
    };
    Series::line(
        name,
        color,
        values.iter().enumerate().flat_map(level).collect(),
    )
}

fn before(case: &Case) -> Vec<f64> {
    case.concentration
        .iter()
        .map(|&c| cases::reports(c))
        .collect()
}

/// A value of the exact solution: at even distances, and on both sides of each place where it may jump or bend.
fn exact_line(case: &Case, breaks: &[f64], value: impl Fn(f64) -> f64) -> Series {
    let half = case.cell_metres() * case.cells() as f64 / 2.0;
    let mut places: Vec<f64> = (-100..=100).map(|k| half * f64::from(k) / 100.0).collect();
    places.extend(breaks.iter().flat_map(|x| [x - 1e-3, x + 1e-3]));
    places.sort_by(f64::total_cmp);
    let points = places.into_iter().map(|x| (x, value(x))).collect();
    Series::line("exact", EXACT, points).dashed()
}

/// The concentrations of both schemes and the exact one, which jumps where the water from each of `origins` is.
fn concentrations(case: &Case, exact: &DamBreak, origins: &[f64]) -> Result<Vec<Series>, Refusal> {
    let t = case.seconds();
    let breaks: Vec<f64> = origins.iter().map(|&x| exact.place(x, t)).collect();
    let [upwind, ours] = [run(case, UPWIND)?, run(case, TWO_STEPS)?].map(|o| o.profile());
    Ok(vec![
        stairs("upwind scheme", OTHER, case, &upwind.concentration),
        stairs("two time steps", OURS, case, &ours.concentration),
        exact_line(case, &breaks, |x| {
            case.concentration_before(exact.origin(x, t))
        }),
    ])
}

fn dam_break(right_depth: u64) -> Result<Chart, Refusal> {
    let case = cases::dam_break(MESH, right_depth);
    let ours = run(&case, TWO_STEPS)?.profile();
    let (exact, t) = (cases::exact(right_depth), case.seconds());
    let edges = exact.edges(t);
    let exact_discharge = |x: f64| {
        let (h, u) = exact.state(x, t);
        h * u
    };
    let depths = vec![
        stairs("computed", OURS, &case, &ours.depth),
        exact_line(&case, &edges, |x| exact.state(x, t).0),
    ];
    let discharges = vec![
        stairs("computed", OURS, &case, &ours.discharge),
        exact_line(&case, &edges, exact_discharge),
    ];
    let name = depth_name(right_depth);
    Ok(Chart {
        title: format!("Dam break, 1 m against {name} m, after {t:.0} s"),
        x_label: "x (m)".to_string(),
        panels: vec![
            panel("Depth", "m", depths),
            panel("Discharge", "m\u{b2}/s", discharges),
            panel(
                "Concentration",
                "report's unit",
                concentrations(&case, &exact, &[0.0])?,
            ),
        ],
    })
}

/// The part of a line between two places.
fn within(low: f64, high: f64, mut series: Series) -> Series {
    // this end of a piece of the line, brought inside along it
    let inside = |this: Point, other: Point| {
        let x = this.0.clamp(low, high);
        if x == this.0 {
            return this;
        }
        let share = (x - this.0) / (other.0 - this.0);
        (x, this.1 + share * (other.1 - this.1))
    };
    let pieces = series.points.windows(2).map(|pair| (pair[0], pair[1]));
    let kept = pieces.filter(|(a, b)| a.0 <= high && b.0 >= low);
    let mut points: Vec<Point> = kept
        .flat_map(|(a, b)| [inside(a, b), inside(b, a)])
        .collect();
    points.dedup();
    series.points = points;
    series
}

/// The five pollutant jumps close by, each as seen from the exact one.
fn fronts() -> Result<Chart, Refusal> {
    let mut panels = Vec::new();
    for row in TABLE_1 {
        let case = cases::dam_break(MESH, row.right_depth);
        let exact = cases::exact(row.right_depth);
        let there = exact.place(0.0, case.seconds());
        let near = |mut series: Series| {
            series.points.iter_mut().for_each(|point| point.0 -= there);
            within(-160.0, 160.0, series)
        };
        let (name, outcome) = (depth_name(row.right_depth), run(&case, TWO_STEPS)?);
        let title = format!(
            "h_r {name}, Froude number {:.3}, steps {} / {}",
            exact.froude(),
            outcome.transport,
            outcome.hydrodynamic
        );
        let lines = concentrations(&case, &exact, &[0.0])?;
        panels.push(panel(
            &title,
            "concentration",
            lines.into_iter().map(near).collect(),
        ));
    }
    Ok(Chart {
        title: "The pollutant's jump in the five dam breaks, after 240 s".to_string(),
        x_label: "distance from the exact jump (m)".to_string(),
        panels,
    })
}

fn peak() -> Result<Chart, Refusal> {
    let case = cases::peak();
    let mut lines = vec![stairs("before", BEFORE, &case, &before(&case))];
    lines.extend(concentrations(
        &case,
        &cases::exact(PEAK_ROW.right_depth),
        &[PEAK_EDGE, 0.0],
    )?);
    // further out the concentration is even
    let near = lines
        .into_iter()
        .map(|series| within(-200.0, 450.0, series));
    Ok(Chart {
        title: "Peak in the concentration behind the dam, after 250 s".to_string(),
        x_label: "x (m)".to_string(),
        panels: vec![panel("Concentration", "report's unit", near.collect())],
    })
}

fn lake() -> Result<Chart, Refusal> {
    let case = cases::lake();
    let outcome = run(&case, TWO_STEPS)?;
    let profile = outcome.profile();
    let bed: Vec<f64> = case.bed.iter().map(|&z| z as f64 / 1e6).collect();
    let level: Vec<f64> = bed.iter().zip(&profile.depth).map(|(z, h)| z + h).collect();
    let water = (
        stairs("water", OURS, &case, &level),
        stairs("bed", BED, &case, &bed),
    );
    let concentrations = vec![
        stairs("computed", OURS, &case, &profile.concentration),
        stairs("before, and exact", EXACT, &case, &before(&case)).dashed(),
    ];
    Ok(Chart {
        title: format!(
            "Lake at rest, after 100 s and {} steps",
            outcome.hydrodynamic
        ),
        x_label: "x (m)".to_string(),
        panels: vec![
            Panel {
                area: Some(water),
                ..panel("Level", "m", vec![])
            },
            panel("Concentration", "report's unit", concentrations),
        ],
    })
}

/// The deeper flows down the gentle slope, with the backwater of the open end. Cells are too short here to be seen as levels.
fn slope() -> Result<Chart, Refusal> {
    let flows = uniform::flows();
    let (mut depths, mut velocities) = (vec![], vec![]);
    let mut theory = [vec![], vec![]];
    for (flow, color) in flows.iter().zip([OTHER, OURS, THIRD]) {
        let steady = flow.steady(CELL_LENGTH)?;
        let (cells, length) = (steady.depth.len(), steady.cell_metres());
        let middle = |cell: usize| length * (cell as f64 + 0.5);
        let line = |value: &dyn Fn(usize) -> f64| -> Vec<Point> {
            (0..cells).map(|cell| (middle(cell), value(cell))).collect()
        };
        let (name, end) = (format!("F {}", flow.strickler), steady.depth[cells - 1]);
        let depth = line(&|cell| steady.depth[cell]);
        let velocity = line(&|cell| steady.discharge[cell] / steady.depth[cell]);
        depths.push(Series::line(&name, color, depth));
        velocities.push(Series::line(&name, color, velocity));
        let backwater = flow.backwater(steady.passes, end, cells, length);
        let depth = line(&|cell| backwater[cell]);
        let velocity = line(&|cell| steady.passes / backwater[cell]);
        for (lines, points) in theory.iter_mut().zip([depth, velocity]) {
            // one entry of the legend stands for all, and so smooth a curve needs few points
            let name = if lines.is_empty() { "theory" } else { "" };
            let points = points.into_iter().step_by(4).collect();
            lines.push(Series::line(name, EXACT, points).dashed());
        }
    }
    let [of_depth, of_velocity] = theory;
    depths.extend(of_depth);
    velocities.extend(of_velocity);
    let (slope, minutes) = (flows[0].slope(), uniform::TIME / 60_000);
    Ok(Chart {
        title: format!("Down a slope of {slope} with friction, after {minutes} min"),
        x_label: "x (m)".to_string(),
        panels: vec![
            panel("Depth", "m", depths),
            panel("Velocity", "m/s", velocities),
        ],
    })
}
