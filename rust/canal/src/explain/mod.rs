//! What is wrong with a refused sheet, list of outlets or Strickler coefficient, in words. The ground is the library's to say; this looks for what is broken at it.

mod rules;

use crate::layout::{self, Header, COLUMNS, HEADER};
use crate::limits::*;
use crate::outlets::List;
use crate::units::counted;
use jemmyfern::{Boundary, Refusal};
use rules::*;

/// One thing that is wrong.
#[derive(Clone, Debug, PartialEq)]
pub struct Fault {
    /// counted from 0
    pub cell: Option<usize>,
    pub words: String,
}

/// The first ground that was not stood, and all that is wrong at it.
#[derive(Clone, Debug, PartialEq)]
pub struct Explanation {
    pub ground: Refusal,
    pub faults: Vec<Fault>,
}

/// More than this are counted only.
const SHOWN: usize = 8;

/// Looks through the grounds of an opening in the paper's order; None of a sheet that opens. Ground 4 is of lent columns and 16 of lent outlets, not of
/// sheets.
pub fn explain(sheet: &[u8]) -> Option<Explanation> {
    let found = |ground, faults: Vec<Fault>| {
        let broken = !faults.is_empty();
        broken.then_some(Explanation { ground, faults })
    };
    let Some(header) = Header::read(sheet) else {
        return found(Refusal::Edition, vec![short(sheet)]);
    };
    found(Refusal::Edition, edition(&header))
        .or_else(|| found(Refusal::Size, size(&header, sheet.len())))
        .or_else(|| found(Refusal::Layout, columns(&header)))
        .or_else(|| found(Refusal::CellLength, cell_length(&header)))
        .or_else(|| found(Refusal::Boundaries, boundaries(&header)))
        .or_else(|| found(Refusal::Values, values(&header, sheet)))
}

/// What is wrong with a list of outlets for a reach of so many cells (ground 16), by its lines; None of a sound one.
pub fn explain_outlets(list: &List, cells: usize) -> Option<Explanation> {
    let mut faults = Vec::new();
    let count = list.outlets.len();
    if count > OUTLETS_MOST {
        let words = format!("{count} outlets, and {OUTLETS_MOST} is the most");
        faults.push(fault(words));
    }
    for (o, line) in list.outlets.iter().zip(&list.lines) {
        let cell = (o.cell >= cells as u64).then(|| {
            let reach = counted(cells as u64, "cell");
            format!(
                "cell {} is not in the reach of {reach}, counted from 0",
                o.cell
            )
        });
        let want = outside("want", o.want.into(), (0, WANT_MOST.into()));
        let words = [cell, want].into_iter().flatten();
        faults.extend(words.map(|w| fault(format!("line {line}: {w}"))));
    }
    let ground = Refusal::Outlets;
    (!faults.is_empty()).then_some(Explanation { ground, faults })
}

/// What is wrong with the Strickler coefficient of a step (ground 17); None of a sound one.
pub fn explain_strickler(strickler: u64) -> Option<Explanation> {
    let range = (STRICKLER_LEAST.into(), STRICKLER_MOST.into());
    let words = outside("Strickler coefficient", strickler.into(), range);
    let words = words.filter(|_| strickler != 0)?;
    Some(Explanation {
        ground: Refusal::Strickler,
        faults: vec![fault(words)],
    })
}

/// The lines to say of a sheet that the library refused.
pub fn refused(sheet: &[u8], refusal: Refusal) -> String {
    match explain(sheet).filter(|e| e.ground == refusal) {
        Some(explanation) => explanation.to_string(),
        None => refusal.to_string(),
    }
}

impl std::fmt::Display for Explanation {
    fn fmt(&self, f: &mut std::fmt::Formatter<'_>) -> std::fmt::Result {
        let number = self.ground.number();
        for (i, fault) in self.faults.iter().take(SHOWN).enumerate() {
            match i {
                0 => writeln!(f, "refused {number}: {}", fault.words)?,
                _ => writeln!(f, "  also: {}", fault.words)?,
            }
        }
        if self.faults.len() > SHOWN {
            writeln!(f, "  and {} more", self.faults.len() - SHOWN)?;
        }
        write!(f, "  ground {number}: {}", self.ground.words())
    }
}

fn fault(words: String) -> Fault {
    Fault { cell: None, words }
}

fn short(sheet: &[u8]) -> Fault {
    let bytes = sheet.len();
    fault(format!(
        "the sheet has {bytes} bytes, and its header alone wants {HEADER}"
    ))
}

fn edition(header: &Header) -> Vec<Fault> {
    let edition = header.edition;
    let words = || fault(format!("edition {edition} is not 1"));
    (edition != 1).then(words).into_iter().collect()
}

fn size(header: &Header, given: usize) -> Vec<Fault> {
    let (cells, length) = (header.cells, u64::from(header.length));
    if !(1..=CELLS_MOST).contains(&cells) {
        return vec![fault(format!("{cells} cells, outside 1..{CELLS_MOST}"))];
    }
    let mut faults = Vec::new();
    if length != given as u64 {
        faults.push(fault(format!(
            "the length field says {length}, but {given} bytes are given"
        )));
    }
    let wanted = jemmyfern::sheet_size(cells as usize) as u64;
    if length != wanted {
        let cells = counted(cells.into(), "cell");
        faults.push(fault(format!(
            "the length field says {length}, but a sheet of {cells} has {wanted} bytes"
        )));
    }
    faults
}

fn columns(header: &Header) -> Vec<Fault> {
    let mut faults = Vec::new();
    for (i, (name, _)) in COLUMNS.iter().enumerate() {
        let (from, to) = header.column(i);
        if from < HEADER as u64 {
            faults.push(fault(format!(
                "the offset of the {name}, {from}, is under {HEADER}"
            )));
        }
        if to > u64::from(header.length) {
            let end = header.length;
            faults.push(fault(format!(
                "the {name} (bytes {from}..{to}) pass the sheet's end ({end})"
            )));
        }
    }
    for i in 0..COLUMNS.len() {
        let others = i + 1..COLUMNS.len();
        faults.extend(others.filter_map(|j| overlap(header, i, j)));
    }
    faults
}

fn overlap(header: &Header, i: usize, j: usize) -> Option<Fault> {
    let ((a, b), (c, d)) = (header.column(i), header.column(j));
    let (one, other) = (COLUMNS[i].0, COLUMNS[j].0);
    let words = || {
        fault(format!(
            "the {one} (bytes {a}..{b}) and the {other} ({c}..{d}) overlap"
        ))
    };
    (a < d && c < b).then(words)
}

fn cell_length(header: &Header) -> Vec<Fault> {
    let length = i128::from(header.cell_length);
    let range = (CELL_LENGTH_LEAST.into(), CELL_LENGTH_MOST.into());
    let words = outside("cell length", length, range);
    words.into_iter().map(fault).collect()
}

fn boundaries(header: &Header) -> Vec<Fault> {
    let [left, right] = &header.boundaries;
    let mut faults = boundary("left boundary", left);
    faults.extend(boundary("right boundary", right));
    faults
}

fn boundary(name: &str, boundary: &Boundary) -> Vec<Fault> {
    let words = match boundary.kind {
        0 => wall(boundary),
        1 => open(boundary),
        2 => fed(boundary),
        kind => vec![Some(format!(
            "kind {kind} is none of 0 wall, 1 open, 2 fed"
        ))],
    };
    let reserved = zero("the reserved field", boundary.reserved.into());
    let words = words.into_iter().chain([reserved]).flatten();
    words.map(|w| fault(format!("{name}: {w}"))).collect()
}

fn values(header: &Header, sheet: &[u8]) -> Vec<Fault> {
    let cells = 0..header.cells as usize;
    let faults = cells.flat_map(|i| {
        let words = cell(header, sheet, i).unwrap_or_default();
        words.into_iter().flatten().map(move |w| Fault {
            cell: Some(i),
            words: format!("cell {i}: {w}"),
        })
    });
    faults.collect()
}

/// What is wrong with the values of cell `i`; None if the sheet does not reach so far, which grounds 2 and 3 leave no room for.
fn cell(header: &Header, sheet: &[u8], i: usize) -> Option<Vec<Option<String>>> {
    let at = |column: usize| header.offsets[column] as usize + COLUMNS[column].1 * i;
    let bed = layout::i32_at(sheet, at(0))?;
    let depth = u64::from(layout::u32_at(sheet, at(1))?);
    let q = layout::i64_at(sheet, at(2))?;
    let m = layout::u64_at(sheet, at(3))?;
    Some(vec![
        outside(
            "bed level",
            bed.into(),
            (-i128::from(BED_MOST), BED_MOST.into()),
        ),
        outside("depth", depth.into(), (0, DEPTH_MOST.into())),
        discharge(q, depth),
        mass(m, depth),
    ])
}
