//! The drawing of a chart.

use super::axis::{extent, padded, widened, Axis};
use super::ink::{fitting, text_width, Anchor, Ink, Pixel};
use super::legend;
use super::{Chart, Panel, Series};

const WIDTH: f64 = 960.0;
const RIGHT: f64 = WIDTH - 28.0;
/// Between the frame of a panel and the header of the next.
const GAP: f64 = 18.0;
/// Sizes of tick labels and of axis labels.
const TICK: f64 = 12.0;
const LABEL: f64 = 12.5;
const GRID: &str = "#e4e4e4";
const FRAME: &str = "#9a9a9a";

/// Where a panel's lines are drawn: its frame in pixels, and its axes.
struct Place<'a> {
    left: f64,
    top: f64,
    bottom: f64,
    x: &'a Axis,
    y: &'a Axis,
}

pub fn svg(chart: &Chart) -> String {
    let height = panel_height(chart.panels.len());
    let x = &x_axis(chart);
    let y_axes = chart.panels.iter().map(|panel| y_axis(panel, height));
    let y_axes: Vec<Axis> = y_axes.collect();
    let left = left_margin(&y_axes);
    let mut ink = Ink::default();
    let mut end = heading(&mut ink, &chart.title);
    for (i, (panel, y)) in chart.panels.iter().zip(&y_axes).enumerate() {
        let top = legend::header(&mut ink, panel, (left, RIGHT), end);
        let bottom = top + height;
        let place = Place {
            left,
            top,
            bottom,
            x,
            y,
        };
        draw(&mut ink, panel, &place);
        let last = i + 1 == chart.panels.len();
        end = if last {
            x_labels(&mut ink, &chart.x_label, &place)
        } else {
            bottom + GAP
        };
    }
    ink.document(WIDTH, end)
}

fn x_axis(chart: &Chart) -> Axis {
    let lines = chart.panels.iter().flat_map(Panel::lines);
    let corners = lines.flat_map(Series::corners);
    Axis::over(widened(extent(corners.map(|p| p.0))), 10)
}

fn y_axis(panel: &Panel, height: f64) -> Axis {
    let corners = panel.lines().flat_map(Series::corners);
    let (low, high) = padded(widened(extent(corners.map(|p| p.1))), 0.06);
    // ground below its lowest point, so that it is seen as ground
    let ground = if panel.area.is_some() { 0.08 } else { 0.0 };
    // labels any closer would be hard to tell apart
    let ticks = (height / 28.0) as usize;
    Axis::over((low - ground * (high - low), high), ticks)
}

fn panel_height(panels: usize) -> f64 {
    match panels {
        0 | 1 => 380.0,
        2 => 260.0,
        _ => 190.0,
    }
}

/// Room for the longest tick label of any panel, so that all frames stand under each other.
fn left_margin(axes: &[Axis]) -> f64 {
    let mut widest = 20.0;
    for axis in axes {
        for tick in axis.ticks() {
            widest = text_width(&axis.label(tick), TICK).max(widest);
        }
    }
    46.0 + widest
}

/// The title of the whole; answers where the first panel may begin.
fn heading(ink: &mut Ink, title: &str) -> f64 {
    if title.is_empty() {
        return 14.0;
    }
    let size = fitting(title, 18.0, WIDTH - 40.0);
    ink.bold((WIDTH / 2.0, 30.0), size, Anchor::Middle, title);
    46.0
}

fn draw(ink: &mut Ink, panel: &Panel, place: &Place) {
    grid(ink, place);
    y_labels(ink, &panel.y_label, place);
    if let Some((upper, lower)) = &panel.area {
        area(ink, upper, lower, place);
    }
    for series in panel.lines() {
        let points = place.pixels(&series.corners());
        ink.path(&points, series.color, 1.8, series.dashed);
    }
    ink.frame((place.left, place.top), (RIGHT, place.bottom), FRAME);
}

fn grid(ink: &mut Ink, place: &Place) {
    for tick in place.x.ticks() {
        let x = place.across(tick);
        ink.line((x, place.top), (x, place.bottom), GRID);
    }
    for tick in place.y.ticks() {
        let y = place.up(tick);
        ink.line((place.left, y), (RIGHT, y), GRID);
    }
}

fn y_labels(ink: &mut Ink, label: &str, place: &Place) {
    for tick in place.y.ticks() {
        let at = (place.left - 8.0, place.up(tick) + 4.0);
        ink.text(at, TICK, Anchor::End, &place.y.label(tick));
    }
    let label = full_label(label, place.y);
    let size = fitting(&label, LABEL, place.bottom - place.top);
    let middle = (place.top + place.bottom) / 2.0;
    ink.upwards((20.0, middle), size, Anchor::Middle, &label);
}

/// The labels under the last panel; answers where the picture ends.
fn x_labels(ink: &mut Ink, label: &str, place: &Place) -> f64 {
    for tick in place.x.ticks() {
        let at = (place.across(tick), place.bottom + 18.0);
        ink.text(at, TICK, Anchor::Middle, &place.x.label(tick));
    }
    let label = full_label(label, place.x);
    let size = fitting(&label, LABEL, RIGHT - place.left);
    let at = ((place.left + RIGHT) / 2.0, place.bottom + 40.0);
    ink.text(at, size, Anchor::Middle, &label);
    place.bottom + 56.0
}

/// The label with the power of ten that the axis counts, at the unit if there is one.
fn full_label(label: &str, axis: &Axis) -> String {
    match axis.power() {
        None => label.to_string(),
        Some(power) if label.contains('(') => label.replacen('(', &format!("({power} "), 1),
        Some(power) => format!("{label} ({power})"),
    }
}

fn area(ink: &mut Ink, upper: &Series, lower: &Series, place: &Place) {
    let (top, bed) = (place.outline(upper), place.outline(lower));
    let between: Vec<Pixel> = top.iter().chain(bed.iter().rev()).copied().collect();
    ink.fill(&between, upper.color);
    if let (Some(first), Some(last)) = (bed.first(), bed.last()) {
        let floor = [(last.0, place.bottom), (first.0, place.bottom)];
        ink.fill(&[&bed[..], &floor].concat(), lower.color);
    }
}

impl Place<'_> {
    fn across(&self, x: f64) -> f64 {
        self.x.place(x, self.left, RIGHT)
    }

    fn up(&self, y: f64) -> f64 {
        self.y.place(y, self.bottom, self.top)
    }

    fn pixels(&self, corners: &[(f64, f64)]) -> Vec<Pixel> {
        let pixel = |&(x, y): &(f64, f64)| (self.across(x), self.up(y));
        corners.iter().map(pixel).collect()
    }

    /// The line without its breaks, as the edge of an area.
    fn outline(&self, series: &Series) -> Vec<Pixel> {
        let mut corners = series.corners();
        corners.retain(|p| p.1.is_finite());
        self.pixels(&corners)
    }
}
