//! Small records for tests.

use reference::random::Record;
use reference::record::{FED, OPEN};
use reference::{Book, Columns, End, StepAnswer};

pub const WALL_END: End = End {
    kind: 0,
    depth: 0,
    concentration: 0,
    zero: 0,
    discharge: 0,
};

pub fn open_end(concentration: u64) -> End {
    End {
        kind: OPEN,
        concentration,
        ..WALL_END
    }
}

pub fn fed_end(depth: u64, discharge: i64, concentration: u64) -> End {
    End {
        kind: FED,
        depth,
        concentration,
        zero: 0,
        discharge,
    }
}

/// Cells as (bed level, base depth, discharge, nutrient); depths follow from the carried water.
pub fn record(x: u64, ends: [End; 2], cells: &[(i64, u64, i64, u64)], carried: &[i64]) -> Record {
    let mut columns = Columns::of_cells(cells.len());
    for (i, &(z, b, q, m)) in cells.iter().enumerate() {
        columns.bed[i] = z;
        columns.base[i] = b;
        columns.depth[i] = (b as i64 + carried[i] - carried[i + 1]) as u64;
        columns.discharge[i] = q;
        columns.nutrient[i] = m;
    }
    columns.carried = carried.to_vec();
    Record {
        columns,
        outlets: vec![],
        x,
        ends,
        book: Book::default(),
    }
}

/// A record without carried water.
pub fn settled(x: u64, ends: [End; 2], cells: &[(i64, u64, i64, u64)]) -> Record {
    record(x, ends, cells, &vec![0; cells.len() + 1])
}

/// Outlet k has drawn this since the settling; its cell's depth is less by it.
pub fn draw(record: &mut Record, k: usize, water: u64) {
    let outlet = &mut record.outlets[k];
    outlet.drawn += water;
    record.columns.depth[outlet.place()] -= water;
}

/// Steps without friction and holds the book handed back.
pub fn step(record: &mut Record, t: u64) -> StepAnswer {
    rough_step(record, t, 0)
}

/// Steps over a bed of this coefficient and holds the book handed back.
pub fn rough_step(record: &mut Record, t: u64, strickler: u64) -> StepAnswer {
    let answer = reference::step(
        &mut record.columns,
        &mut record.outlets,
        record.x,
        record.ends,
        record.book,
        t,
        strickler,
    );
    record.book = answer.book;
    answer
}

/// Settles and holds the book handed back; gives the refusal.
pub fn settle(record: &mut Record) -> u32 {
    let answer = reference::settle(
        &mut record.columns,
        &mut record.outlets,
        record.x,
        record.ends,
        record.book,
    );
    record.book = answer.book;
    answer.refusal
}

/// The run of the paper's last figure: two cells between walls.
pub fn two_cells() -> Record {
    let cells = [(0, 1_000_000, 0, 3_000_000), (0, 100_000, 0, 0)];
    settled(1_000, [WALL_END; 2], &cells)
}
