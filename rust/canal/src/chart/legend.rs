//! What stands above the frame of a panel: its title, and the names of its lines.

use super::ink::{fitting, text_width, Anchor, Ink};
use super::{Panel, Series};

/// Between two lines of text.
const LINE: f64 = 18.0;
/// Between two entries.
const BETWEEN: f64 = 18.0;
/// The sample of a line, and the room behind it.
const SAMPLE: f64 = 24.0;
const INDENT: f64 = 30.0;
const TITLE: f64 = 14.0;
const SIZE: f64 = 12.0;

/// Draws the header from `y` down, between `left` and `right`, with the legend beside the title if there is room; answers where it ends.
pub fn header(ink: &mut Ink, panel: &Panel, (left, right): (f64, f64), y: f64) -> f64 {
    let mut baseline = y + LINE - 4.0;
    let size = fitting(&panel.title, TITLE, right - left);
    ink.bold((left, baseline), size, Anchor::Start, &panel.title);
    let entries: Vec<&Series> = panel.lines().filter(|s| !s.name.is_empty()).collect();
    let beside = left + title_width(panel);
    let start = right - entries.iter().map(|s| width(s)).sum::<f64>() + BETWEEN;
    if start < beside && !panel.title.is_empty() {
        baseline += LINE;
    }
    let mut x = start.max(left);
    for series in entries {
        if x > left && x + width(series) - BETWEEN > right + 1.0 {
            (x, baseline) = (left, baseline + LINE);
        }
        entry(ink, series, panel.fills(series), (x, baseline));
        x += width(series);
    }
    baseline + 10.0
}

fn title_width(panel: &Panel) -> f64 {
    text_width(&panel.title, TITLE) + 2.0 * BETWEEN
}

fn width(series: &Series) -> f64 {
    INDENT + text_width(&series.name, SIZE) + BETWEEN
}

fn entry(ink: &mut Ink, series: &Series, filled: bool, (x, baseline): (f64, f64)) {
    let (middle, end) = (baseline - 4.0, x + SAMPLE);
    if filled {
        let (top, bottom) = (middle - 5.0, middle + 5.0);
        let corners = [(x, top), (end, top), (end, bottom), (x, bottom)];
        ink.fill(&corners, series.color);
        ink.frame((x, top), (end, bottom), series.color);
    } else {
        ink.path(
            &[(x, middle), (end, middle)],
            series.color,
            2.0,
            series.dashed,
        );
    }
    ink.text((x + INDENT, baseline), SIZE, Anchor::Start, &series.name);
}
