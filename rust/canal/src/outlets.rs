//! Outlets as text that a person writes, a line each, and what they drew:
//!
//! ```text
//! # cell want
//! 13 300    # up to 300 micrometres per step from cell 13
//! ```
//!
//! The order of the lines is that of the list: it decides who has the units left where a cell cannot give all that is wanted.

use crate::balance::{write_aligned, HEADS};
use crate::table::fields::{number, U64};
use crate::table::{said_lines, TableError};
use crate::units::{counted, cubic_metres, grams};
use jemmyfern::Outlet;
use std::fmt::Write;

/// A list as it was written, judged by nobody yet.
#[derive(Clone, Debug, Default, PartialEq)]
pub struct List {
    pub outlets: Vec<Outlet>,
    /// the line that each comes from, counted from 1
    pub lines: Vec<usize>,
}

/// Reads a list.
pub fn read(text: &str) -> Result<List, TableError> {
    let mut list = List::default();
    for (line, words) in said_lines(text) {
        let outlet = outlet(&words).map_err(|words| TableError { line, words })?;
        list.outlets.push(outlet);
        list.lines.push(line);
    }
    Ok(list)
}

fn outlet(words: &[&str]) -> Result<Outlet, String> {
    let [cell, want] = words else {
        let given = counted(words.len() as u64, "value");
        return Err(format!("{given}, but an outlet has 2: cell, want"));
    };
    let field = |name, word| number(name, word, U64).map(|n| n as u64);
    Ok(Outlet::new(field("cell", cell)?, field("want", want)?))
}

/// A table of what each outlet drew since the opening.
pub fn drawn(outlets: &[Outlet], cell_length: u64) -> String {
    let mut lines = vec![HEADS.map(String::from)];
    lines[0][0] = "drawn by outlets".into();
    lines.extend(outlets.iter().map(|o| {
        let (water, mass) = (o.water.into(), o.mass.into());
        [
            format!("cell {}, wanting {} µm a step", o.cell, o.want),
            o.water.to_string(),
            cubic_metres(water, cell_length),
            o.mass.to_string(),
            grams(mass, cell_length),
        ]
    }));
    let mut text = String::new();
    // writing to a string cannot fail
    let _ = write_aligned(&mut text, &lines);
    let _ = writeln!(
        text,
        "A want is of a step: the same outlet draws more in shorter steps."
    );
    text
}
