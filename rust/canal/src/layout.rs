//! Where things stand in a sheet: the paper's header of 80 bytes and four columns. All numbers are little-endian.

use jemmyfern::Boundary;

/// Bytes of the header.
pub const HEADER: usize = 80;
/// The place of the number of cells.
pub const CELLS_AT: usize = 8;

/// The columns in the writer's order: name, bytes of an entry.
pub const COLUMNS: [(&str, usize); 4] = [
    ("bed levels", 4),
    ("depths", 4),
    ("discharges", 8),
    ("masses", 8),
];

/// The header as it stands, whatever it says.
#[derive(Clone, Debug, PartialEq)]
pub struct Header {
    pub edition: u32,
    pub length: u32,
    pub cells: u32,
    pub cell_length: u32,
    /// of the four columns
    pub offsets: [u32; 4],
    pub boundaries: [Boundary; 2],
}

impl Header {
    /// None of a sheet that is shorter than a header.
    pub fn read(sheet: &[u8]) -> Option<Header> {
        let mut offsets = [0; 4];
        for (i, offset) in offsets.iter_mut().enumerate() {
            *offset = u32_at(sheet, 16 + 4 * i)?;
        }
        Some(Header {
            edition: u32_at(sheet, 0)?,
            length: u32_at(sheet, 4)?,
            cells: u32_at(sheet, CELLS_AT)?,
            cell_length: u32_at(sheet, 12)?,
            offsets,
            boundaries: [boundary_at(sheet, 32)?, boundary_at(sheet, 56)?],
        })
    }

    /// The first byte of a column and the one behind its last.
    pub fn column(&self, column: usize) -> (u64, u64) {
        let from = u64::from(self.offsets[column]);
        (
            from,
            from + COLUMNS[column].1 as u64 * u64::from(self.cells),
        )
    }

    /// The columns follow each other as the writer has them.
    pub fn in_writers_order(&self) -> bool {
        let mut at = HEADER as u64;
        (0..COLUMNS.len()).all(|column| {
            let (from, to) = self.column(column);
            std::mem::replace(&mut at, to) == from
        })
    }
}

fn boundary_at(sheet: &[u8], at: usize) -> Option<Boundary> {
    Some(Boundary {
        kind: u32_at(sheet, at)?,
        depth: u32_at(sheet, at + 4)?.into(),
        concentration: u32_at(sheet, at + 8)?.into(),
        reserved: u32_at(sheet, at + 12)?,
        discharge: i64_at(sheet, at + 16)?,
    })
}

/// The `N` bytes at `at`, if the sheet has them.
fn bytes_at<const N: usize>(sheet: &[u8], at: usize) -> Option<[u8; N]> {
    let end = at.checked_add(N)?;
    sheet.get(at..end)?.try_into().ok()
}

pub fn u32_at(sheet: &[u8], at: usize) -> Option<u32> {
    bytes_at(sheet, at).map(u32::from_le_bytes)
}

pub fn i32_at(sheet: &[u8], at: usize) -> Option<i32> {
    bytes_at(sheet, at).map(i32::from_le_bytes)
}

pub fn u64_at(sheet: &[u8], at: usize) -> Option<u64> {
    bytes_at(sheet, at).map(u64::from_le_bytes)
}

pub fn i64_at(sheet: &[u8], at: usize) -> Option<i64> {
    bytes_at(sheet, at).map(i64::from_le_bytes)
}
