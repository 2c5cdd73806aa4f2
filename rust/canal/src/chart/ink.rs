//! The elements of an SVG document.

use std::fmt::Display;

const INK: &str = "#333333";
const FONTS: &str = "system-ui, 'Segoe UI', 'Helvetica Neue', Arial, 'DejaVu Sans', sans-serif";

/// A point in pixels, y downwards.
pub type Pixel = (f64, f64);

/// Elements so far.
#[derive(Default)]
pub struct Ink {
    out: String,
}

/// Which side of a text its point is on.
#[derive(Clone, Copy)]
pub enum Anchor {
    Start,
    Middle,
    End,
}

impl Ink {
    fn put(&mut self, element: impl Display) {
        self.out.push_str(&format!("{element}\n"));
    }

    pub fn text(&mut self, at: Pixel, size: f64, anchor: Anchor, text: &str) {
        self.styled(at, size, anchor, "", text);
    }

    pub fn bold(&mut self, at: Pixel, size: f64, anchor: Anchor, text: &str) {
        self.styled(at, size, anchor, r#" font-weight="bold""#, text);
    }

    /// Text that runs upwards.
    pub fn upwards(&mut self, (x, y): Pixel, size: f64, anchor: Anchor, text: &str) {
        let turn = format!(r#" transform="rotate(-90 {x:.1} {y:.1})""#);
        self.styled((x, y), size, anchor, &turn, text);
    }

    fn styled(&mut self, (x, y): Pixel, size: f64, anchor: Anchor, style: &str, text: &str) {
        let (anchor, text) = (anchor.name(), escaped(text));
        self.put(format_args!(
            r#"<text x="{x:.1}" y="{y:.1}" font-size="{size:.1}" text-anchor="{anchor}"{style}>{text}</text>"#
        ));
    }

    pub fn line(&mut self, from: Pixel, to: Pixel, color: &str) {
        self.path(&[from, to], color, 1.0, false);
    }

    /// A line through points, broken where one has no height.
    pub fn path(&mut self, points: &[Pixel], color: &str, width: f64, dashed: bool) {
        let d = strokes(points);
        let dash = if dashed {
            r#" stroke-dasharray="7 4""#
        } else {
            ""
        };
        if !d.is_empty() {
            self.put(format_args!(
                r#"<path d="{d}" fill="none" stroke="{color}" stroke-width="{width}" stroke-linejoin="round"{dash}/>"#
            ));
        }
    }

    /// A filled polygon through which the grid can be seen.
    pub fn fill(&mut self, corners: &[Pixel], color: &str) {
        let d = strokes(corners);
        if !d.is_empty() {
            self.put(format_args!(
                r#"<path d="{d} Z" fill="{color}" fill-opacity="0.45"/>"#
            ));
        }
    }

    pub fn frame(&mut self, (left, top): Pixel, (right, bottom): Pixel, color: &str) {
        let (width, height) = (right - left, bottom - top);
        self.put(format_args!(
            r#"<rect x="{left:.1}" y="{top:.1}" width="{width:.1}" height="{height:.1}" fill="none" stroke="{color}"/>"#
        ));
    }

    /// The document on white.
    pub fn document(self, width: f64, height: f64) -> String {
        let body = self.out;
        let size = format!(r#"width="{width:.0}" height="{height:.0}""#);
        let view = format!(r#"viewBox="0 0 {width:.0} {height:.0}""#);
        format!(
            "<svg xmlns=\"http://www.w3.org/2000/svg\" {size} {view} font-family=\"{FONTS}\" fill=\"{INK}\">\n\
             <rect {size} fill=\"white\"/>\n{body}</svg>\n"
        )
    }
}

impl Anchor {
    fn name(self) -> &'static str {
        match self {
            Anchor::Start => "start",
            Anchor::Middle => "middle",
            Anchor::End => "end",
        }
    }
}

/// A guess that errs on the wide side, since fonts differ.
pub fn text_width(text: &str, size: f64) -> f64 {
    text.chars().count() as f64 * size * 0.6
}

/// The size at which a text fits its room, at most the wanted one.
pub fn fitting(text: &str, wanted: f64, room: f64) -> f64 {
    wanted.min(wanted * room / text_width(text, wanted).max(1.0))
}

/// The data of a path, begun anew behind a point that has no height.
fn strokes(points: &[Pixel]) -> String {
    let mut steps = Vec::new();
    let mut pen = 'M';
    for (x, y) in points {
        if y.is_finite() {
            steps.push(format!("{pen}{x:.2} {y:.2}"));
            pen = 'L';
        } else {
            pen = 'M';
        }
    }
    steps.join(" ")
}

/// Text as XML takes it; characters that XML does not know become a question mark.
fn escaped(text: &str) -> String {
    let mut out = String::with_capacity(text.len());
    for c in text.chars() {
        match c {
            '&' => out.push_str("&amp;"),
            '<' => out.push_str("&lt;"),
            '>' => out.push_str("&gt;"),
            '\t' | '\n' | '\r' => out.push(' '),
            c if c.is_control() || matches!(c, '\u{fffe}' | '\u{ffff}') => out.push('?'),
            c => out.push(c),
        }
    }
    out
}

#[cfg(test)]
mod tests {
    use super::*;

    #[test]
    fn a_break_lifts_the_pen() {
        let points = [(0.0, 1.0), (1.0, f64::NAN), (2.0, 3.0), (3.0, 3.0)];
        assert_eq!(strokes(&points), "M0.00 1.00 M2.00 3.00 L3.00 3.00");
    }

    #[test]
    fn text_is_escaped() {
        assert_eq!(escaped("a < b & c\u{1}\n"), "a &lt; b &amp; c? ");
    }

    #[test]
    fn long_text_is_made_to_fit() {
        assert_eq!(fitting("short", 12.0, 500.0), 12.0);
        let long = "x".repeat(100);
        assert!(text_width(&long, fitting(&long, 12.0, 500.0)) <= 500.1);
    }
}
