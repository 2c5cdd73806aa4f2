//! The tables of docs/VALIDATION.md, as Markdown.

use crate::cases::{self, Case, Mesh, Row, MESH, PEAK_ROW, TABLE_1};
use crate::exact::GRAVITY;
use crate::floating::{self, Against, Choices};
use crate::profile::Profile;
use crate::run::{run, Outcome, Way, TWO_STEPS, UPWIND};
use crate::uniform::{self, Steady, CELL_LENGTH};
use jemmyfern::Refusal;

pub struct Table {
    pub title: &'static str,
    pub text: String,
}

type Line = Vec<String>;
type Lines = Result<Vec<Line>, Refusal>;

/// Every table in the order of the page.
pub fn all() -> Result<Vec<Table>, Refusal> {
    let steady = uniform::flows();
    let steady: Result<Vec<_>, _> = steady.iter().map(|f| f.steady(CELL_LENGTH)).collect();
    let steady = steady?;
    Ok(vec![
        table("Steps, the report's and ours", steps()?),
        table("Distance from the exact solution", errors()?),
        table("The peak of 6.2 and the lake of 6.3", others()?),
        table("Uniform flow down a slope", uniform(&steady)),
        table("The cell length on a slope", cell_lengths(&steady)?),
        table("The choices that the report leaves open", choices()?),
        table("The scale of lengths and times", scales()?),
        table("The mesh", meshes()?),
    ])
}

fn table(title: &'static str, lines: Vec<Line>) -> Table {
    let mut text = String::new();
    for (number, line) in lines.iter().enumerate() {
        text.push_str(&format!("| {} |\n", line.join(" | ")));
        if number == 0 {
            text.push_str(&format!("|{}\n", "---|".repeat(line.len())));
        }
    }
    Table { title, text }
}

fn words(line: &[&str]) -> Line {
    line.iter().map(|word| word.to_string()).collect()
}

/// A depth in metres, as the report prints it.
pub fn depth_name(depth: u64) -> String {
    (depth as f64 / 1e6).to_string()
}

/// The dam breaks of table 1, then the peak.
fn rows() -> Vec<(String, Row, Case)> {
    let dam = |row: Row| {
        let case = cases::dam_break(MESH, row.right_depth);
        (depth_name(row.right_depth), row, case)
    };
    let mut rows: Vec<_> = TABLE_1.into_iter().map(dam).collect();
    rows.push(("0.5, peak".to_string(), PEAK_ROW, cases::peak()));
    rows
}

/// The first line of a table with a column for each dam break.
fn head(first: &str, more: &[&str]) -> Line {
    let dams = TABLE_1.iter().map(|row| depth_name(row.right_depth));
    let mut line = vec![first.to_string()];
    line.extend(dams);
    line.extend(words(more));
    line
}

fn steps() -> Lines {
    let mut lines = vec![words(&[
        "h_l",
        "h_r",
        "Froude, report",
        "exact",
        "computed",
        "transport steps, report",
        "ours",
        "hydrodynamic steps, report",
        "ours",
    ])];
    for (name, row, case) in rows() {
        let outcome = run(&case, TWO_STEPS)?;
        lines.push(vec![
            "1".to_string(),
            name,
            format!("{:.3}", row.froude),
            format!("{:.3}", cases::exact(row.right_depth).froude()),
            format!("{:.3}", outcome.profile().froude()),
            row.transport.to_string(),
            outcome.transport.to_string(),
            row.hydrodynamic.to_string(),
            outcome.hydrodynamic.to_string(),
        ]);
    }
    Ok(lines)
}

fn errors() -> Lines {
    let mut lines = vec![words(&[
        "h_r",
        "depth, mean error (mm)",
        "pollutant's jump, exact (m)",
        "computed",
        "off by",
        "concentration error (m)",
        "of the upwind scheme",
    ])];
    for row in TABLE_1 {
        let case = cases::dam_break(MESH, row.right_depth);
        let exact = cases::exact(row.right_depth);
        let [ours, upwind] = [run(&case, TWO_STEPS)?, run(&case, UPWIND)?].map(|o| o.profile());
        let there = exact.place(0.0, case.seconds());
        lines.push(vec![
            depth_name(row.right_depth),
            format!("{:.2}", ours.depth_error(&case, &exact)),
            format!("{there:.1}"),
            format!("{:.1}", ours.front(&case)),
            format!("{:+.1}", ours.front(&case) - there),
            format!("{:.1}", ours.concentration_error(&case, &exact)),
            format!("{:.1}", upwind.concentration_error(&case, &exact)),
        ]);
    }
    Ok(lines)
}

fn others() -> Lines {
    let mut lines = vec![words(&[
        "case",
        "scheme",
        "transport steps",
        "hydrodynamic steps",
        "greatest concentration",
        "concentration error (m)",
        "entries of the record that changed",
    ])];
    let exact = cases::exact(PEAK_ROW.right_depth);
    for (name, case) in [("peak", cases::peak()), ("lake", cases::lake())] {
        for (scheme, way) in [("two time steps", TWO_STEPS), ("upwind", UPWIND)] {
            let outcome = run(&case, way)?;
            let profile = outcome.profile();
            let mut line = words(&[name, scheme]);
            line.push(outcome.transport.to_string());
            line.push(outcome.hydrodynamic.to_string());
            line.push(format!("{:.4}", profile.greatest_concentration()));
            // the lake has no dam whose jump could measure an error, and the peak is meant to move
            line.extend(match name {
                "lake" => ["-".to_string(), changed(&outcome).to_string()],
                _ => {
                    let error = profile.concentration_error(&case, &exact);
                    [format!("{error:.1}"), "-".to_string()]
                }
            });
            lines.push(line);
        }
    }
    Ok(lines)
}

/// How many entries of all columns are not what they were.
fn changed(outcome: &Outcome) -> usize {
    fn unlike<T: PartialEq>(a: &[T], b: &[T]) -> usize {
        a.iter().zip(b).filter(|(a, b)| a != b).count()
    }
    let (a, b) = (&outcome.start, &outcome.end);
    unlike(&a.bed, &b.bed)
        + unlike(&a.depth, &b.depth)
        + unlike(&a.discharge, &b.discharge)
        + unlike(&a.mass, &b.mass)
        + unlike(&a.base, &b.base)
        + unlike(&a.carried, &b.carried)
}

fn percent(share: f64) -> String {
    format!("{:+.2}", 100.0 * share)
}

fn uniform(flows: &[Steady]) -> Vec<Line> {
    let mut lines = vec![words(&[
        "fed (m\u{b2}/s)",
        "slope",
        "F",
        "passes (m\u{b2}/s)",
        "a cell's discharge off it (%)",
        "depth, theory (m)",
        "computed",
        "off by (%)",
        "velocity at this depth, theory (m/s)",
        "computed",
        "off by (%)",
        "of it whole centimetres",
        "of it steps of the bed",
    ])];
    lines.extend(flows.iter().map(|steady| {
        let flow = &steady.flow;
        vec![
            flow.fed().to_string(),
            flow.slope().to_string(),
            flow.strickler.to_string(),
            format!("{:.4}", steady.passes),
            percent(steady.discharge_off()),
            format!("{:.4}", flow.depth(steady.passes)),
            format!("{:.4}", steady.mean_depth()),
            percent(steady.depth_off()),
            format!("{:.3}", flow.velocity(steady.mean_depth())),
            format!("{:.3}", steady.mean_velocity()),
            percent(steady.velocity_off()),
            percent(steady.centimetres()),
            percent(steady.steps()),
        ]
    }));
    lines
}

/// The deeper flows on longer cells, then as they are.
fn cell_lengths(flows: &[Steady]) -> Lines {
    let deep: Vec<&Steady> = flows.iter().filter(|s| s.flow.fed() >= 1.0).collect();
    let mut head = words(&["depth; velocity off by (%)"]);
    head.extend(deep.iter().map(|s| {
        let (slope, strickler) = (s.flow.slope(), s.flow.strickler);
        format!("{slope}, F {strickler}")
    }));
    let line = |metres: f64, flows: &[Steady]| {
        let mut line = vec![format!("cells of {metres} m")];
        let off = |s: &Steady| [s.depth_off(), s.velocity_off()].map(percent).join("; ");
        line.extend(flows.iter().map(off));
        line
    };
    let mut lines = vec![head];
    for times in [4, 2] {
        let length = CELL_LENGTH * times;
        let longer: Result<Vec<_>, _> = deep.iter().map(|s| s.flow.steady(length)).collect();
        lines.push(line(length as f64 / 1e3, &longer?));
    }
    let deep: Vec<Steady> = deep.into_iter().cloned().collect();
    lines.push(line(CELL_LENGTH as f64 / 1e3, &deep));
    Ok(lines)
}

/// Steps, in bold with the report's in brackets where they differ.
fn beside(transport: u32, hydrodynamic: u32, row: &Row) -> String {
    let counted = format!("{transport} / {hydrodynamic}");
    if (transport, hydrodynamic) == (row.transport, row.hydrodynamic) {
        return counted;
    }
    format!(
        "**{counted}** (report {} / {})",
        row.transport, row.hydrodynamic
    )
}

fn choices() -> Lines {
    let mut lines = vec![head(
        "transport / hydrodynamic steps",
        &["0.5, peak", "greatest, dam breaks", "greatest, peak"],
    )];
    for (name, cut_last) in [("ours", true), ("ours, last step whole", false)] {
        let way = Way {
            cut_last,
            ..TWO_STEPS
        };
        lines.push(choice(name.to_string(), |case| {
            let outcome = run(case, way)?;
            Ok((outcome.transport, outcome.hydrodynamic, outcome.profile()))
        })?);
    }
    for (gravity, against, cut_last) in [
        (GRAVITY, Against::Base, true),
        (9.81, Against::Base, true),
        (9.81, Against::Base, false),
        (9.81, Against::Running, true),
        (9.81, Against::Running, false),
    ] {
        let choices = Choices {
            gravity,
            against,
            cut_last,
        };
        let depth = match against {
            Against::Base => "base depth",
            Against::Running => "running depth",
        };
        let last = if cut_last { "cut" } else { "whole" };
        let name = format!("not rounded, g {gravity}, {depth}, last step {last}");
        lines.push(choice(name, |case| {
            let unrounded = floating::run(case, choices);
            Ok((
                unrounded.transport,
                unrounded.hydrodynamic,
                unrounded.profile,
            ))
        })?);
    }
    Ok(lines)
}

/// A line with the steps of each dam break and of the peak, and their greatest concentrations.
fn choice(
    name: String,
    count: impl Fn(&Case) -> Result<(u32, u32, Profile), Refusal>,
) -> Result<Line, Refusal> {
    let mut line = vec![name];
    let (mut dams, mut peak) = (0f64, 0f64);
    for (_, row, case) in rows() {
        let (transport, hydrodynamic, profile) = count(&case)?;
        line.push(beside(transport, hydrodynamic, &row));
        // the peak comes last
        (dams, peak) = (dams.max(peak), profile.greatest_concentration());
    }
    line.extend([dams, peak].map(|greatest| format!("{greatest:.4}")));
    Ok(line)
}

fn scales() -> Lines {
    let mut lines = vec![head("cell length (mm)", &[])];
    for cell_length in [500, 1_000, 2_000, 2_500, 3_200, 3_600, 3_750] {
        let mut line = vec![cell_length.to_string()];
        for row in TABLE_1 {
            let case = cases::dam_break(Mesh::new(100, cell_length), row.right_depth);
            let outcome = run(&case, TWO_STEPS)?;
            line.push(beside(outcome.transport, outcome.hydrodynamic, &row));
        }
        lines.push(line);
    }
    Ok(lines)
}

fn meshes() -> Lines {
    let unrounded = Choices {
        gravity: GRAVITY,
        against: Against::Base,
        cut_last: true,
    };
    let mut lines = vec![head(
        "depth, mean error (mm); pollutant's jump off by (m)",
        &[],
    )];
    for cells in [100, 200, 400] {
        let ours = |case: &Case| Ok(run(case, TWO_STEPS)?.profile());
        lines.push(mesh(format!("{cells} cells"), cells, ours)?);
        let floats = |case: &Case| Ok(floating::run(case, unrounded).profile);
        lines.push(mesh(format!("{cells} cells, not rounded"), cells, floats)?);
    }
    Ok(lines)
}

/// A line with the errors in each dam break on so many cells.
fn mesh(
    name: String,
    cells: usize,
    run: impl Fn(&Case) -> Result<Profile, Refusal>,
) -> Result<Line, Refusal> {
    let mut line = vec![name];
    for row in TABLE_1 {
        let case = cases::dam_break(Mesh::new(cells, 3_600), row.right_depth);
        let (exact, profile) = (cases::exact(row.right_depth), run(&case)?);
        let off = profile.front(&case) - exact.place(0.0, case.seconds());
        line.push(format!(
            "{:.2}; {off:+.1}",
            profile.depth_error(&case, &exact)
        ));
    }
    Ok(line)
}
