//! Line charts as SVG: panels one below the other over a shared x axis. No scripts, no outside fonts, a fixed viewBox.

mod axis;
mod draw;
mod ink;
mod legend;

/// A line through points in order of x.
#[derive(Clone, Debug, PartialEq)]
pub struct Series {
    /// shown in the legend; an empty name is left out of it
    pub name: String,
    /// any SVG colour, such as `"#1f6fb4"`
    pub color: &'static str,
    pub dashed: bool,
    /// Each point is the middle of a level, as the centre of a cell is: levels meet halfway between neighbours, and the outer two reach out as
    /// far as they reach in.
    pub stairs: bool,
    /// A point whose y is not finite breaks the line.
    pub points: Vec<(f64, f64)>,
}

/// One set of axes.
#[derive(Clone, Debug, Default, PartialEq)]
pub struct Panel {
    pub title: String,
    /// with its unit
    pub y_label: String,
    pub series: Vec<Series>,
    /// The upper and the lower line of a filled area, as water over its bed: between them in the colour of the upper, and from the lower down to
    /// the panel's floor in its own.
    pub area: Option<(Series, Series)>,
}

#[derive(Clone, Debug, Default, PartialEq)]
pub struct Chart {
    pub title: String,
    /// with its unit
    pub x_label: String,
    /// top to bottom
    pub panels: Vec<Panel>,
}

impl Series {
    /// A plain line.
    pub fn line(name: impl Into<String>, color: &'static str, points: Vec<(f64, f64)>) -> Series {
        Series {
            name: name.into(),
            color,
            dashed: false,
            stairs: false,
            points,
        }
    }

    pub fn dashed(self) -> Series {
        Series {
            dashed: true,
            ..self
        }
    }

    pub fn stairs(self) -> Series {
        Series {
            stairs: true,
            ..self
        }
    }

    /// The corners of the line as it is drawn, breaks included.
    fn corners(&self) -> Vec<(f64, f64)> {
        let placed = |p: &&(f64, f64)| p.0.is_finite();
        let points: Vec<_> = self.points.iter().filter(placed).copied().collect();
        if self.stairs {
            levels(&points)
        } else {
            points
        }
    }
}

/// The two corners of each level.
fn levels(points: &[(f64, f64)]) -> Vec<(f64, f64)> {
    // half the way from point i to its neighbour on one side, or as far out as the other neighbour is in
    let half = |i: usize, j: Option<usize>, k: Option<usize>| {
        let x = points[i].0;
        let x_of = |j: usize| points.get(j).map(|p| p.0);
        match (j.and_then(x_of), k.and_then(x_of)) {
            (Some(near), _) => (x + near) / 2.0,
            (None, Some(far)) => x - (far - x) / 2.0,
            (None, None) => x,
        }
    };
    let mut corners = Vec::with_capacity(2 * points.len());
    for (i, &(_, y)) in points.iter().enumerate() {
        let (before, after) = (i.checked_sub(1), Some(i + 1));
        corners.push((half(i, before, after), y));
        corners.push((half(i, after, before), y));
    }
    corners
}

impl Panel {
    /// All lines, those of the area first.
    fn lines(&self) -> impl Iterator<Item = &Series> {
        let area = self.area.iter().flat_map(|(upper, lower)| [upper, lower]);
        area.chain(&self.series)
    }

    /// The line is an edge of the area.
    fn fills(&self, series: &Series) -> bool {
        let mut edges = self.area.iter().flat_map(|(upper, lower)| [upper, lower]);
        edges.any(|edge| std::ptr::eq(edge, series))
    }
}

impl Chart {
    /// The whole picture as one SVG document.
    pub fn svg(&self) -> String {
        draw::svg(self)
    }
}

#[cfg(test)]
mod tests {
    use super::*;

    #[test]
    fn levels_meet_halfway_and_reach_out_evenly() {
        let stairs = Series::line("", "black", vec![(1.0, 5.0), (3.0, 6.0)]).stairs();
        let corners = [(0.0, 5.0), (2.0, 5.0), (2.0, 6.0), (4.0, 6.0)];
        assert_eq!(stairs.corners(), corners);
    }

    #[test]
    fn one_level_is_its_point() {
        let stairs = Series::line("", "black", vec![(1.0, 5.0)]).stairs();
        assert_eq!(stairs.corners(), [(1.0, 5.0), (1.0, 5.0)]);
    }
}
