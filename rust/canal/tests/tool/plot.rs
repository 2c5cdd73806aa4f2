//! Pictures: well-formed, with what they must say.

use crate::tools::*;
use canal::chart::{Chart, Panel, Series};
use canal::record::Record;

/// Every tag is closed in its order, every attribute has its quotes, and no text has a bare sign.
fn assert_well_formed(svg: &str) {
    let mut open: Vec<&str> = Vec::new();
    let mut rest = svg.trim_end();
    while let Some(start) = rest.find('<') {
        assert_plain(&rest[..start], !open.is_empty());
        let end = rest.find('>').expect("the tag ends");
        let tag = &rest[start + 1..end];
        assert!(!tag.contains('<'), "{tag}");
        assert_eq!(tag.matches('"').count() % 2, 0, "{tag}");
        if let Some(closed) = tag.strip_prefix('/') {
            assert_eq!(open.pop(), Some(closed));
        } else if !tag.ends_with('/') {
            open.push(tag.split_whitespace().next().expect("a name"));
        }
        rest = &rest[end + 1..];
    }
    assert!(open.is_empty() && rest.is_empty(), "{open:?} {rest}");
}

fn assert_plain(text: &str, inside: bool) {
    assert!(inside || text.is_empty(), "{text}");
    assert!(!text.contains('>'), "{text}");
    for entity in text.split('&').skip(1) {
        assert!(
            ["amp;", "lt;", "gt;"].iter().any(|e| entity.starts_with(e)),
            "{text}"
        );
    }
}

fn assert_sound(svg: &str) {
    assert_well_formed(svg);
    assert!(svg.starts_with("<svg xmlns=\"http://www.w3.org/2000/svg\""));
    assert!(svg.contains("viewBox=\"0 0 960 "));
    for word in ["NaN", "inf", "<script", "href"] {
        assert!(!svg.contains(word), "{word}");
    }
}

#[test]
fn a_plot_has_its_labels() {
    let sheet = file("plot & <label>.sheet");
    let picture = file("plot.svg");
    let mut record = Record::new(4);
    record.depth = vec![1_000_000, 500_000, 0, 20];
    record.mass = vec![2_000_000_000, 5, 0, 0];
    std::fs::write(&sheet, record.draft_sheet()).expect("written");
    let answer = call(&["plot", text(&sheet), text(&picture)]);
    assert_eq!((answer.status, answer.text(), &*answer.errors), (0, "", ""));
    let svg = std::fs::read_to_string(&picture).expect("there");
    assert_sound(&svg);
    let labels = [
        "plot &amp; &lt;label&gt;.sheet: 4 cells of 1 m",
        "distance from the left end (m)",
        "Depth over bed",
        "level (m)",
        "water surface",
        ">bed<",
        "discharge (m²/s)",
        "concentration (mg/l)",
    ];
    for label in labels {
        assert!(svg.contains(label), "{label}");
    }
}

#[test]
fn low_concentrations_are_in_micrograms() {
    let mut record = Record::new(1);
    (record.depth[0], record.mass[0]) = (1_000, 999_000);
    let answer = fed(&["plot", "-", "-"], &record.draft_sheet());
    assert!(answer.text().contains("concentration (µg/l)"));
}

#[test]
fn any_record_makes_a_sound_picture() {
    let mut dice = Dice(23);
    for cells in [1, 2, 7, 512].repeat(25) {
        let record = dice.record(cells);
        assert_sound(&canal::plot::chart("any", &record).svg());
    }
    assert_sound(&canal::plot::chart("dry", &Record::new(3)).svg());
}

#[test]
fn any_chart_makes_a_sound_picture() {
    assert_sound(&Chart::default().svg());
    let line = |points| Series::line("a < b & c", "black", points);
    let odd = [
        vec![],
        vec![(0.0, 0.0)],
        vec![(1.0, f64::NAN), (2.0, f64::INFINITY)],
        vec![(f64::NAN, 1.0)],
        vec![(-1e300, -1e300), (1e300, 1e300)],
        vec![(1e-300, 1e-300), (2e-300, 3e-300)],
        vec![(1e15, 1e15), (1e15 + 1.0, 1e15 + 1.0)],
    ];
    for points in odd {
        let area = Some((line(points.clone()), line(points.clone()).stairs()));
        let series = vec![line(points.clone()).dashed(), line(points).stairs()];
        let panel = Panel {
            title: "\u{1}title".into(),
            series,
            area,
            ..Panel::default()
        };
        let panels = vec![panel.clone(), panel];
        let chart = Chart {
            panels,
            ..Chart::default()
        };
        assert_sound(&chart.svg());
    }
}
