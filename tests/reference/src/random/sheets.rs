//! Random sheets, built here byte by byte without the writer.

use super::{damage_end, kinds, record_of, Random, Record};
use crate::record::{
    Columns, End, BED_LIMIT, DEEPEST, FASTEST, LEAST_X, MOST_CELLS, MOST_X, RICHEST,
};
use crate::sheet::{field, signed_field};

/// All orders of the four columns; the first is the writer's.
pub const COLUMN_ORDERS: [[usize; 4]; 24] = [
    [0, 1, 2, 3],
    [0, 1, 3, 2],
    [0, 2, 1, 3],
    [0, 2, 3, 1],
    [0, 3, 1, 2],
    [0, 3, 2, 1],
    [1, 0, 2, 3],
    [1, 0, 3, 2],
    [1, 2, 0, 3],
    [1, 2, 3, 0],
    [1, 3, 0, 2],
    [1, 3, 2, 0],
    [2, 0, 1, 3],
    [2, 0, 3, 1],
    [2, 1, 0, 3],
    [2, 1, 3, 0],
    [2, 3, 0, 1],
    [2, 3, 1, 0],
    [3, 0, 1, 2],
    [3, 0, 2, 1],
    [3, 1, 0, 2],
    [3, 1, 2, 0],
    [3, 2, 0, 1],
    [3, 2, 1, 0],
];

/// Header places.
const LENGTH: usize = 4;
const CELLS: usize = 8;
const CELL_LENGTH: usize = 12;
const OFFSETS: usize = 16;
const ENDS: usize = 32;

/// A sound sheet of n cells with its columns in any order.
pub fn sheet(r: &mut Random, n: usize) -> Vec<u8> {
    let kinds = kinds(r);
    let record = record_of(r, n, kinds, false);
    let order = r.pick(&COLUMN_ORDERS);
    sheet_of(&record, order)
}

/// The sheet of a record, carried water and book left out, columns in this order.
pub fn sheet_of(record: &Record, order: [usize; 4]) -> Vec<u8> {
    let bytes = column_bytes(&record.columns);
    let n = record.columns.bed.len() as u32;
    let mut offsets = [0u32; 4];
    let mut at = 80;
    for k in order {
        offsets[k] = at;
        at += bytes[k].len() as u32;
    }
    let mut sheet = Vec::new();
    let counts = [1, 80 + 24 * n, n, field(record.x)];
    for word in counts.iter().chain(&offsets) {
        sheet.extend(word.to_le_bytes());
    }
    for end in &record.ends {
        sheet.extend(end_bytes(end));
    }
    for k in order {
        sheet.extend(&bytes[k]);
    }
    sheet
}

fn column_bytes(c: &Columns) -> [Vec<u8>; 4] {
    [
        c.bed
            .iter()
            .flat_map(|&z| signed_field(z).to_le_bytes())
            .collect(),
        c.depth
            .iter()
            .flat_map(|&h| field(h).to_le_bytes())
            .collect(),
        c.discharge.iter().flat_map(|q| q.to_le_bytes()).collect(),
        c.nutrient.iter().flat_map(|m| m.to_le_bytes()).collect(),
    ]
}

fn end_bytes(end: &End) -> Vec<u8> {
    let (depth, concentration) = (field(end.depth), field(end.concentration));
    let words = [end.kind, depth, concentration, end.zero];
    let mut bytes: Vec<u8> = words.iter().flat_map(|w| w.to_le_bytes()).collect();
    bytes.extend(end.discharge.to_le_bytes());
    bytes
}

/// Breaks this ground, 1 to 3 or 5 to 7, of a sound sheet and none before it.
/// Ground 4 at opening concerns the lent columns: see `damage_columns`.
pub fn damage_sheet(r: &mut Random, sheet: &mut Vec<u8>, ground: u32) {
    match ground {
        1 if r.one_in(2) => sheet.truncate(r.below(80) as usize),
        1 => put(sheet, 0, &r.pick(&[0u32, 2, 257, u32::MAX]).to_le_bytes()),
        2 => damage_length(r, sheet),
        3 => damage_offset(r, sheet),
        5 => {
            let x = r.pick(&[0, LEAST_X - 1, MOST_X + 1, u32::MAX.into()]);
            put(sheet, CELL_LENGTH, &field(x).to_le_bytes());
        }
        6 => {
            let at = ENDS + 24 * r.below(2) as usize;
            let mut end = end_from(&sheet[at..at + 24]);
            damage_end(r, &mut end);
            put(sheet, at, &end_bytes(&end));
        }
        7 => damage_value(r, sheet),
        _ => panic!("no ground {ground} of a sheet"),
    }
}

fn damage_length(r: &mut Random, sheet: &mut Vec<u8>) {
    let n = word(sheet, CELLS);
    let length = word(sheet, LENGTH);
    match r.below(4) {
        0 => {
            let other = r.pick(&[0, n - 1, n + 1, MOST_CELLS as u32 + 1, u32::MAX]);
            put(sheet, CELLS, &other.to_le_bytes());
        }
        1 => {
            let other = r.pick(&[0, 80, length - 1, length + 24, u32::MAX]);
            put(sheet, LENGTH, &other.to_le_bytes());
        }
        2 => sheet.push(0),
        // n and length agree with each other, not with the bytes given
        _ => {
            put(sheet, CELLS, &(n + 1).to_le_bytes());
            put(sheet, LENGTH, &(length + 24).to_le_bytes());
        }
    }
}

/// The columns fill the sheet, so any other place for one of them breaks ground 3.
fn damage_offset(r: &mut Random, sheet: &mut [u8]) {
    let at = OFFSETS + 4 * r.below(4) as usize;
    let old = word(sheet, at);
    let length = sheet.len() as u32;
    let any = r.below(u64::from(length)) as u32;
    let far = u32::MAX - r.below(5_000) as u32;
    let mut new = r.pick(&[0, 79, old - 1, old + 1, length, any, far]);
    if new == old {
        new += 1;
    }
    put(sheet, at, &new.to_le_bytes());
}

fn damage_value(r: &mut Random, sheet: &mut [u8]) {
    let i = r.below(u64::from(word(sheet, CELLS))) as usize;
    let place =
        |sheet: &[u8], k: usize, size: usize| word(sheet, OFFSETS + 4 * k) as usize + size * i;
    let depth = u64::from(word(sheet, place(sheet, 1, 4)));
    let sign: i64 = r.pick(&[1, -1]);
    match r.below(4) {
        0 => {
            let over = (sign * (BED_LIMIT + 1)) as i32;
            let z = r.pick(&[over, i32::MAX, i32::MIN]);
            put(sheet, place(sheet, 0, 4), &z.to_le_bytes());
        }
        1 => {
            let h = r.pick(&[DEEPEST as u32 + 1, u32::MAX]);
            put(sheet, place(sheet, 1, 4), &h.to_le_bytes());
        }
        2 => {
            let over = (FASTEST * depth) as i64 + 1;
            let q = r.pick(&[sign * over, i64::MAX, i64::MIN]);
            put(sheet, place(sheet, 2, 8), &q.to_le_bytes());
        }
        _ => {
            let m = r.pick(&[RICHEST * depth + 1, u64::MAX]);
            put(sheet, place(sheet, 3, 8), &m.to_le_bytes());
        }
    }
}

fn end_from(bytes: &[u8]) -> End {
    End {
        kind: word(bytes, 0),
        depth: word(bytes, 4).into(),
        concentration: word(bytes, 8).into(),
        zero: word(bytes, 12),
        discharge: i64::from_le_bytes(bytes[16..24].try_into().expect("eight bytes")),
    }
}

fn word(bytes: &[u8], at: usize) -> u32 {
    u32::from_le_bytes(bytes[at..at + 4].try_into().expect("four bytes"))
}

fn put(bytes: &mut [u8], at: usize, value: &[u8]) {
    bytes[at..at + value.len()].copy_from_slice(value);
}
