//! The sheet: opening (grounds 1 to 7, 16) and writing (grounds 4 to 9 with 16, then 14, 15).
//! "The sheet does not hold" the list of outlets.

use crate::outlet::{list_sound, Outlet};
use crate::record::{
    check, end_sound, ground, length_sound, values_sound, Book, Columns, End, MOST_CELLS,
};

pub const HEADER: usize = 80;
pub const PER_CELL: usize = 24;
const EDITION: u32 = 1;

/// Header place of the four column offsets, and of the two ends.
const OFFSETS: usize = 16;
const ENDS: usize = 32;
const PER_END: usize = 24;
/// Entry sizes: bottoms (i32), depths (u32), discharges (i64), nutrients (u64).
const SIZES: [usize; 4] = [4, 4, 8, 8];

/// A refused opening has x 0, ends and book all zero.
#[derive(Clone, Copy, Debug, PartialEq, Eq)]
pub struct OpenAnswer {
    pub refusal: u32,
    pub x: u64,
    pub ends: [End; 2],
    pub book: Book,
}

#[derive(Clone, Copy, Debug, PartialEq, Eq)]
pub struct WriteAnswer {
    pub refusal: u32,
    pub ends: [End; 2],
    pub book: Book,
}

/// Bytes of a sheet of n cells.
pub fn sheet_length(n: usize) -> usize {
    HEADER + PER_CELL * n
}

/// A sheet that passed grounds 1 to 3.
struct Layout {
    n: usize,
    x: u64,
    offsets: [usize; 4],
    ends: [End; 2],
}

/// Fills the lent columns from a sheet; their lengths are those of ground 4.
pub fn open(sheet: &[u8], c: &mut Columns, outlets: &mut [Outlet]) -> OpenAnswer {
    match check_sheet(sheet, c, outlets) {
        Ok(layout) => {
            for i in 0..layout.n {
                let (z, h, q, m) = cell_at(sheet, &layout.offsets, i);
                c.bed[i] = z;
                c.depth[i] = h;
                c.discharge[i] = q;
                c.nutrient[i] = m;
                c.base[i] = h; // "A sheet opens with b = h, c = 0, an empty book."
            }
            c.carried.fill(0);
            outlets.iter_mut().for_each(|o| *o = o.opened());
            OpenAnswer {
                refusal: 0,
                x: layout.x,
                ends: layout.ends,
                book: Book::default(),
            }
        }
        Err(refusal) => OpenAnswer {
            refusal,
            x: 0,
            ends: [End::default(); 2],
            book: Book::default(),
        },
    }
}

/// Grounds 1 to 7 in checking order, then 16.
fn check_sheet(sheet: &[u8], c: &Columns, outlets: &[Outlet]) -> Result<Layout, u32> {
    ground(1, sheet.len() >= HEADER && u32_at(sheet, 0) == EDITION)?;

    let n = u32_at(sheet, 8) as usize;
    ground(2, (1..=MOST_CELLS).contains(&n))?;
    let length = u32_at(sheet, 4) as usize;
    ground(2, length == sheet.len() && length == sheet_length(n))?;

    let offsets = [0, 1, 2, 3].map(|k| u32_at(sheet, OFFSETS + 4 * k));
    ground(3, columns_apart(offsets, n))?;

    ground(4, c.bed.len() == n && c.fit(n))?;

    let x = u64::from(u32_at(sheet, 12));
    ground(5, length_sound(x))?;

    let ends = [0, 1].map(|k| end_at(sheet, ENDS + PER_END * k));
    ground(6, ends.iter().all(end_sound))?;

    let offsets = offsets.map(|offset| offset as usize);
    let sound = |i: usize| {
        let (z, h, q, m) = cell_at(sheet, &offsets, i);
        values_sound(z, h, q, m, h)
    };
    ground(7, (0..n).all(sound))?;
    ground(16, list_sound(outlets, n))?;
    Ok(Layout {
        n,
        x,
        offsets,
        ends,
    })
}

/// 3: "An offset is under 80, a column passes the end, or two columns overlap."
/// Sums in 64 bits: an offset near 2^32 must not wrap.
fn columns_apart(offsets: [u32; 4], n: usize) -> bool {
    let from = |k: usize| u64::from(offsets[k]);
    let past = |k: usize| from(k) + (SIZES[k] * n) as u64;
    let inside = |k: usize| from(k) >= HEADER as u64 && past(k) <= sheet_length(n) as u64;
    let apart = |k: usize, j: usize| past(k) <= from(j) || past(j) <= from(k);
    (0..4).all(inside) && (0..4).all(|k| (0..k).all(|j| apart(j, k)))
}

/// Bed level, depth, discharge and nutrient of cell i.
fn cell_at(sheet: &[u8], offsets: &[usize; 4], i: usize) -> (i64, u64, i64, u64) {
    let place = |k: usize| offsets[k] + SIZES[k] * i;
    (
        i64::from(u32_at(sheet, place(0)) as i32),
        u64::from(u32_at(sheet, place(1))),
        u64_at(sheet, place(2)) as i64,
        u64_at(sheet, place(3)),
    )
}

/// "u32 kind, u32 depth, u32 concentration, u32 zero, i64 discharge"
fn end_at(sheet: &[u8], at: usize) -> End {
    End {
        kind: u32_at(sheet, at),
        depth: u32_at(sheet, at + 4).into(),
        concentration: u32_at(sheet, at + 8).into(),
        zero: u32_at(sheet, at + 12),
        discharge: u64_at(sheet, at + 16) as i64,
    }
}

fn u32_at(sheet: &[u8], at: usize) -> u32 {
    u32::from_le_bytes(sheet[at..at + 4].try_into().expect("four bytes"))
}

fn u64_at(sheet: &[u8], at: usize) -> u64 {
    u64::from_le_bytes(sheet[at..at + 8].try_into().expect("eight bytes"))
}

/// Writes the sheet of a settled record; bytes after the sheet keep their values.
pub fn write(
    c: &Columns,
    outlets: &[Outlet],
    x: u64,
    ends: [End; 2],
    book: Book,
    out: &mut [u8],
) -> WriteAnswer {
    let refusal = match check_write(c, outlets, x, &ends, &book, out.len()) {
        Ok(n) => {
            fill_sheet(c, x, &ends, n, out);
            0
        }
        Err(refusal) => refusal,
    };
    WriteAnswer {
        refusal,
        ends,
        book,
    }
}

fn check_write(
    c: &Columns,
    outlets: &[Outlet],
    x: u64,
    ends: &[End; 2],
    book: &Book,
    room: usize,
) -> Result<usize, u32> {
    let n = check(c, outlets, x, ends, &[], book)?;
    ground(14, c.carried.iter().all(|&w| w == 0))?;
    ground(14, outlets.iter().all(|o| o.drawn == 0))?;
    ground(15, room >= sheet_length(n))?;
    Ok(n)
}

fn fill_sheet(c: &Columns, x: u64, ends: &[End; 2], n: usize, out: &mut [u8]) {
    // "the writer uses the order above"
    let offsets = [HEADER, HEADER + 4 * n, HEADER + 8 * n, HEADER + 16 * n];
    let counts = [EDITION, sheet_length(n) as u32, n as u32, field(x)];
    fill(out, counts.map(u32::to_le_bytes));
    let starts = offsets.map(|offset| (offset as u32).to_le_bytes());
    fill(&mut out[OFFSETS..], starts);
    for (k, end) in ends.iter().enumerate() {
        let at = ENDS + PER_END * k;
        let (depth, concentration) = (field(end.depth), field(end.concentration));
        let words = [end.kind, depth, concentration, end.zero];
        fill(&mut out[at..], words.map(u32::to_le_bytes));
        fill(&mut out[at + 16..], [end.discharge.to_le_bytes()]);
    }
    let beds = c.bed.iter().map(|&z| signed_field(z).to_le_bytes());
    fill(&mut out[offsets[0]..], beds);
    let depths = c.depth.iter().map(|&h| field(h).to_le_bytes());
    fill(&mut out[offsets[1]..], depths);
    let discharges = c.discharge.iter().map(|q| q.to_le_bytes());
    fill(&mut out[offsets[2]..], discharges);
    let nutrients = c.nutrient.iter().map(|m| m.to_le_bytes());
    fill(&mut out[offsets[3]..], nutrients);
}

/// A value in the 32 bits that a sheet has for it: never another value in its place.
/// Grounds 5 to 7 hold those of a record far below 2^31.
pub fn field(value: u64) -> u32 {
    value.try_into().expect("32 bits")
}

/// As `field`, for a bed level.
pub fn signed_field(value: i64) -> i32 {
    value.try_into().expect("32 bits")
}

/// "Each column is filled from its own offset onward"
fn fill<const S: usize>(out: &mut [u8], entries: impl IntoIterator<Item = [u8; S]>) {
    for (place, entry) in out.chunks_exact_mut(S).zip(entries) {
        place.copy_from_slice(&entry);
    }
}
