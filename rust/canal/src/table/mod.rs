//! Records as text that a person writes:
//!
//! ```text
//! # anything behind a number sign is a remark
//! cell_length 1000
//! left  wall
//! right fed depth 500000 discharge 2000000 concentration 1200
//! cells
//! 0 1000000 0 3000000
//! 0  100000 0       0
//! ```
//!
//! The header may stand in any order. The line `cells` begins the rows of bed, depth, discharge and mass; a line of column names does so too,
//! and then the rows have those columns, in that order, with 0 in the others. A row that ends in `x 20` stands for twenty equal cells.

pub(crate) mod fields;
mod read;

use crate::record::Record;
use jemmyfern::Boundary;

pub use read::{read, Table, TableError};

/// The columns, in the order that `cells` means.
pub const COLUMNS: [&str; 4] = ["bed", "depth", "discharge", "mass"];

/// The text of a record. A table has no carried water, so transport first.
pub fn write(record: &Record) -> String {
    let [left, right] = &record.boundaries;
    let mut lines = vec![
        format!("cell_length {}", record.cell_length),
        format!("left {}", boundary(left)),
        format!("right {}", boundary(right)),
        "cells".to_string(),
        format!("# {}", COLUMNS.join(" ")),
    ];
    lines.extend((0..record.cells()).map(|i| {
        let (bed, depth) = (record.bed[i], record.depth[i]);
        let (discharge, mass) = (record.discharge[i], record.mass[i]);
        format!("{bed} {depth} {discharge} {mass}")
    }));
    lines.join("\n") + "\n"
}

/// The lines that say something, counted from 1, in words; what stands behind a number sign is a remark.
pub(crate) fn said_lines(text: &str) -> impl Iterator<Item = (usize, Vec<&str>)> {
    let text = text.strip_prefix('\u{feff}').unwrap_or(text);
    let lines = (1..).zip(text.lines().map(said));
    lines.filter(|(_, words)| !words.is_empty())
}

fn said(line: &str) -> Vec<&str> {
    let said = line.split('#').next().unwrap_or("");
    said.split_whitespace().collect()
}

/// Text that may be meant as a table, though perhaps a wrong one. No sheet that opens is text: its edition has zero bytes. Pictures, which are
/// text too, begin with a tag.
pub fn looks_like_one(bytes: &[u8]) -> bool {
    let Ok(text) = std::str::from_utf8(bytes) else {
        return false;
    };
    let printable = |c: char| !c.is_control() || c.is_whitespace();
    let lines = text.contains("cell") || text.contains('\n');
    lines && text.chars().all(printable) && !text.starts_with('<')
}

fn boundary(boundary: &Boundary) -> String {
    let Boundary {
        kind,
        depth,
        concentration,
        discharge,
        ..
    } = boundary;
    match kind {
        0 => "wall".to_string(),
        1 => format!("open concentration {concentration}"),
        _ => format!("fed depth {depth} discharge {discharge} concentration {concentration}"),
    }
}
