//! What a record held before a run and holds after it, what passed its boundaries and outlets, and whether the two agree.

use crate::record::Record;
use crate::units::{cubic_metres, grams};
use jemmyfern::{Ledger, Outlet, Totals};
use std::fmt;

/// Sums over the cells, or over the outlets.
#[derive(Clone, Copy, Debug, PartialEq, Eq)]
pub struct Held {
    /// micrometres of depth of a cell
    pub water: u128,
    /// grains
    pub mass: u128,
}

impl Held {
    pub fn by(record: &Record) -> Held {
        let sum = |column: &[u64]| column.iter().map(|&v| u128::from(v)).sum();
        Held {
            water: sum(&record.depth),
            mass: sum(&record.mass),
        }
    }

    /// What all outlets drew since the opening.
    pub fn drawn(outlets: &[Outlet]) -> Held {
        let sum = |f: fn(&Outlet) -> u64| outlets.iter().map(|o| u128::from(f(o))).sum();
        Held {
            water: sum(|o| o.water),
            mass: sum(|o| o.mass),
        }
    }
}

/// The account of a run, from the opening of the record on.
#[derive(Clone, Copy, Debug, PartialEq, Eq)]
pub struct Balance {
    pub before: Held,
    pub after: Held,
    pub ledger: Ledger,
    /// None without outlets
    pub drawn: Option<Held>,
    /// mm
    pub cell_length: u64,
}

impl Balance {
    /// The balance of a record, after a transport, that was opened holding `before`.
    pub fn of(before: Held, record: &Record) -> Balance {
        Balance {
            before,
            after: Held::by(record),
            ledger: record.ledger,
            drawn: (!record.outlets.is_empty()).then(|| Held::drawn(&record.outlets)),
            cell_length: record.cell_length,
        }
    }

    /// Opening and what came in are what went out, was drawn and is held, to the unit.
    pub fn closes(&self) -> bool {
        let Ledger { left, right } = &self.ledger;
        let sum = |f: fn(&Totals) -> u64| u128::from(f(left)) + u128::from(f(right));
        let drawn = |f: fn(&Held) -> u128| self.drawn.as_ref().map_or(0, f);
        let water = self.before.water + sum(|t| t.water_in)
            == self.after.water + sum(|t| t.water_out) + drawn(|d| d.water);
        let mass = self.before.mass + sum(|t| t.mass_in)
            == self.after.mass + sum(|t| t.mass_out) + drawn(|d| d.mass);
        water && mass
    }

    fn rows(&self) -> Vec<(&'static str, u128, u128)> {
        let Ledger { left, right } = &self.ledger;
        let passed = |name, water: u64, mass: u64| (name, water.into(), mass.into());
        let mut rows = vec![
            ("held before", self.before.water, self.before.mass),
            passed("in at the left", left.water_in, left.mass_in),
            passed("in at the right", right.water_in, right.mass_in),
            passed("out at the left", left.water_out, left.mass_out),
            passed("out at the right", right.water_out, right.mass_out),
        ];
        rows.extend(self.drawn.map(|d| ("drawn by outlets", d.water, d.mass)));
        rows.push(("held after", self.after.water, self.after.mass));
        rows
    }
}

/// The heads of a table of water and mass.
pub(crate) const HEADS: [&str; 5] = ["", "water: µm", "m³/m", "mass: grains", "g/m"];

/// A table with a line for each sum and the conversions under it.
impl fmt::Display for Balance {
    fn fmt(&self, f: &mut fmt::Formatter<'_>) -> fmt::Result {
        let length = self.cell_length;
        let mut lines = vec![HEADS.map(String::from)];
        lines.extend(self.rows().into_iter().map(|(name, water, mass)| {
            let (volume, weight) = (cubic_metres(water, length), grams(mass, length));
            [
                name.into(),
                water.to_string(),
                volume,
                mass.to_string(),
                weight,
            ]
        }));
        write_aligned(f, &lines)?;
        let closes = if self.closes() {
            "closes"
        } else {
            "DOES NOT CLOSE"
        };
        let drawn = self.drawn.map_or("", |_| " - drawn");
        writeln!(
            f,
            "The balance {closes}: held before + in - out{drawn} = held after."
        )?;
        writeln!(f, "Water is in µm of depth of one cell of {length} mm: 1 µm is {} m³ per metre of width (m³/m).", cubic_metres(1, length))?;
        writeln!(
            f,
            "A grain is 1 µm of such a cell at 1 µg/l: {} g per metre of width (g/m).",
            grams(1, length)
        )?;
        writeln!(
            f,
            "A sheet holds no ledger: these totals start at 0 with each run."
        )
    }
}

/// Names to the left, numbers to the right of their columns.
pub(crate) fn write_aligned(f: &mut impl fmt::Write, lines: &[[String; 5]]) -> fmt::Result {
    let width = |i: usize| {
        lines
            .iter()
            .map(|l| l[i].chars().count())
            .max()
            .unwrap_or(0)
    };
    let widths = [0, 1, 2, 3, 4].map(width);
    for line in lines {
        write!(f, "{:<w$}", line[0], w = widths[0])?;
        for (cell, w) in line.iter().zip(widths).skip(1) {
            write!(f, "  {cell:>w$}")?;
        }
        writeln!(f)?;
    }
    Ok(())
}
