//! A record that owns its columns.

use crate::layout::{self, COLUMNS, HEADER};
use jemmyfern::{sheet_size, Boundary, Columns, Ledger, Outlet, Reach, Refusal, CELLS_MOST};

/// The columns of a reach and all that travels with them. Units and limits are those of [`jemmyfern::Columns`].
///
/// ```
/// use canal::record::Record;
/// # fn main() -> Result<(), jemmyfern::Refusal> {
/// let mut still = Record::new(40);
/// still.depth.fill(1_000_000);
/// let mut record = Record::open(&still.draft_sheet())?;
/// record.with(|reach| {
///     reach.step(reach.greatest_step()?.time)?;
///     reach.transport()
/// })?;
/// assert_eq!(record.depth, still.depth);
/// # Ok(())
/// # }
/// ```
#[derive(Clone, Debug, PartialEq)]
pub struct Record {
    pub bed: Vec<i64>,
    pub depth: Vec<u64>,
    pub discharge: Vec<i64>,
    pub mass: Vec<u64>,
    /// depth at the last transport
    pub base: Vec<u64>,
    /// one entry more than there are cells
    pub carried: Vec<i64>,
    /// a sheet does not hold them
    pub outlets: Vec<Outlet>,
    /// mm
    pub cell_length: u64,
    /// left, right
    pub boundaries: [Boundary; 2],
    pub ledger: Ledger,
}

impl Record {
    /// Dry cells of one metre on a flat bed between walls, without outlets.
    pub fn new(cells: usize) -> Record {
        Record {
            bed: vec![0; cells],
            depth: vec![0; cells],
            discharge: vec![0; cells],
            mass: vec![0; cells],
            base: vec![0; cells],
            carried: vec![0; cells + 1],
            outlets: vec![],
            cell_length: 1000,
            boundaries: [Boundary::WALL; 2],
            ledger: Ledger::default(),
        }
    }

    /// Opens a sheet. The number of cells in its header only sizes the columns; whether it opens is the library's to say.
    pub fn open(sheet: &[u8]) -> Result<Record, Refusal> {
        Record::open_with(sheet, vec![])
    }

    /// Opens a sheet with these outlets, whose totals start at 0.
    pub fn open_with(sheet: &[u8], outlets: Vec<Outlet>) -> Result<Record, Refusal> {
        let cells = layout::u32_at(sheet, layout::CELLS_AT).unwrap_or(0);
        // a greater number is refused whatever the columns, so it need not be believed
        let cells = (cells as usize).min(CELLS_MOST);
        let mut record = Record {
            outlets,
            ..Record::new(cells)
        };
        let (columns, outlets) = lent(&mut record);
        let reach = Reach::open(sheet, columns, outlets)?;
        let (cell_length, boundaries, ledger) = (reach.cell_length, reach.boundaries, reach.ledger);
        (record.cell_length, record.boundaries, record.ledger) = (cell_length, boundaries, ledger);
        Ok(record)
    }

    pub fn cells(&self) -> usize {
        self.bed.len()
    }

    /// Lends columns and outlets to the library's calls, and keeps the boundaries and the ledger that they leave.
    pub fn with<T>(&mut self, f: impl FnOnce(&mut Reach<'_>) -> T) -> T {
        let (cell_length, boundaries, ledger) = (self.cell_length, self.boundaries, self.ledger);
        let (columns, outlets) = lent(self);
        let mut reach = Reach {
            columns,
            outlets,
            cell_length,
            boundaries,
            ledger,
        };
        let answer = f(&mut reach);
        let (cell_length, boundaries, ledger) = (reach.cell_length, reach.boundaries, reach.ledger);
        (self.cell_length, self.boundaries, self.ledger) = (cell_length, boundaries, ledger);
        answer
    }

    /// The record as a sheet, by the library's own writing. Transport first.
    pub fn to_sheet(&mut self) -> Result<Vec<u8>, Refusal> {
        let mut sheet = vec![0; sheet_size(self.cells())];
        self.with(|reach| reach.write(&mut sheet))?;
        Ok(sheet)
    }

    /// The bytes of a sheet in the writer's order, without any check: for a record that the library has yet to judge.
    ///
    /// A value too great for its field becomes the field's extreme, which lies beyond the limit, so that it is still refused.
    pub fn draft_sheet(&self) -> Vec<u8> {
        let mut sheet = Vec::with_capacity(sheet_size(self.cells()));
        self.put_header(&mut sheet);
        for boundary in &self.boundaries {
            put_boundary(&mut sheet, boundary);
        }
        put_all(&mut sheet, &self.bed, |&z| narrow_signed(z).to_le_bytes());
        put_all(&mut sheet, &self.depth, |&h| narrow(h).to_le_bytes());
        put_all(&mut sheet, &self.discharge, |q| q.to_le_bytes());
        put_all(&mut sheet, &self.mass, |m| m.to_le_bytes());
        sheet
    }

    fn put_header(&self, sheet: &mut Vec<u8>) {
        let cells = self.cells() as u64;
        let length = sheet_size(self.cells()) as u64;
        for field in [1, length, cells, self.cell_length] {
            sheet.extend(narrow(field).to_le_bytes());
        }
        let mut offset = HEADER as u64;
        for (_, width) in COLUMNS {
            sheet.extend(narrow(offset).to_le_bytes());
            offset += width as u64 * cells;
        }
    }
}

fn lent(record: &mut Record) -> (Columns<'_>, &mut [Outlet]) {
    let columns = Columns {
        bed: &mut record.bed,
        depth: &mut record.depth,
        discharge: &mut record.discharge,
        mass: &mut record.mass,
        base: &mut record.base,
        carried: &mut record.carried,
    };
    (columns, &mut record.outlets)
}

fn put_boundary(sheet: &mut Vec<u8>, boundary: &Boundary) {
    let (depth, concentration) = (narrow(boundary.depth), narrow(boundary.concentration));
    for field in [boundary.kind, depth, concentration, boundary.reserved] {
        sheet.extend(field.to_le_bytes());
    }
    sheet.extend(boundary.discharge.to_le_bytes());
}

fn put_all<T, const N: usize>(sheet: &mut Vec<u8>, column: &[T], bytes: impl Fn(&T) -> [u8; N]) {
    for value in column {
        sheet.extend(bytes(value));
    }
}

fn narrow(value: u64) -> u32 {
    u32::try_from(value).unwrap_or(u32::MAX)
}

fn narrow_signed(value: i64) -> i32 {
    value.clamp(i32::MIN.into(), i32::MAX.into()) as i32
}
