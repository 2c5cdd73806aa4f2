//! Deterministic random records, outlets and sheets, sound or damaged, for tests.

mod damage;
mod outlets;
mod sheets;

pub use damage::{damage_columns, damage_end, damage_record};
pub use outlets::{choose_wants, damage_list, lend_outlets, odd_outlets, outlets_for_opening};
pub use sheets::{damage_sheet, sheet, sheet_of, COLUMN_ORDERS};

use crate::outlet::Outlet;
use crate::record::{
    Book, Columns, End, Totals, BED_LIMIT, DEEPEST, FASTEST, FED, LEAST_X, MOST_CELLS, MOST_TOTAL,
    MOST_X, OPEN, RICHEST, WALL,
};

/// xorshift64*
#[derive(Clone, Debug)]
pub struct Random(u64);

impl Random {
    pub fn new(seed: u64) -> Random {
        // the state must not be 0
        Random(seed.wrapping_mul(0x9E37_79B9_7F4A_7C15) | 1)
    }

    pub fn next_u64(&mut self) -> u64 {
        self.0 ^= self.0 >> 12;
        self.0 ^= self.0 << 25;
        self.0 ^= self.0 >> 27;
        self.0.wrapping_mul(0x2545_F491_4F6C_DD1D)
    }

    /// 0..limit; limit > 0
    pub fn below(&mut self, limit: u64) -> u64 {
        (self.next_u64() >> 11) % limit
    }

    /// least..=most; the span must be under 2^53
    pub fn between(&mut self, least: i64, most: i64) -> i64 {
        least + self.below((most - least) as u64 + 1) as i64
    }

    pub fn one_in(&mut self, chances: u64) -> bool {
        self.below(chances) == 0
    }

    pub fn pick<T: Copy>(&mut self, list: &[T]) -> T {
        list[self.below(list.len() as u64) as usize]
    }
}

/// A record with everything a call is given besides its free arguments.
#[derive(Clone, Debug, PartialEq, Eq, Default)]
pub struct Record {
    pub columns: Columns,
    pub outlets: Vec<Outlet>,
    pub x: u64,
    pub ends: [End; 2],
    pub book: Book,
}

/// How lively a record is: each value is the greatest its cells usually take.
struct Style {
    depth: u64,
    speed: i64,
    bed: i64,
    concentration: u64,
}

fn style(r: &mut Random) -> Style {
    Style {
        depth: r.pick(&[20, 2_000, 150_000, 1_500_000, DEEPEST]),
        speed: r.pick(&[0, 60, 1_500, FASTEST as i64]),
        bed: r.pick(&[0, 30, 100_000, 2_000_000, BED_LIMIT]),
        concentration: r.pick(&[0, 3, 1_000, RICHEST]),
    }
}

/// Mostly short reaches, now and then up to 512 cells.
pub fn cell_count(r: &mut Random) -> usize {
    let most = r.pick(&[1, 2, 3, 8, 8, 40, MOST_CELLS as i64]);
    r.between(1, most) as usize
}

pub fn kinds(r: &mut Random) -> [u32; 2] {
    let kinds = [WALL, OPEN, FED];
    [r.pick(&kinds), r.pick(&kinds)]
}

/// A sound record of n cells, of any kinds, with carried water.
pub fn record(r: &mut Random, n: usize) -> Record {
    let kinds = kinds(r);
    record_of(r, n, kinds, true)
}

/// A sound record of any length.
pub fn any_record(r: &mut Random) -> Record {
    let n = cell_count(r);
    record(r, n)
}

/// A sound record without outlets; unless `carrying` it is settled, as after an opening or a
/// settling.
pub fn record_of(r: &mut Random, n: usize, kinds: [u32; 2], carrying: bool) -> Record {
    let style = style(r);
    let ends = kinds.map(|kind| end_like(r, kind, &style));
    let mut c = Columns::of_cells(n);
    if carrying && kinds[0] != WALL {
        c.carried[0] = carried(r, &style, -(DEEPEST as i64), DEEPEST as i64);
    }
    for i in 0..n {
        let still = !carrying || (i + 1 == n && kinds[1] == WALL);
        fill_cell(r, &mut c, i, &style, still);
    }
    Record {
        columns: c,
        outlets: vec![],
        x: cell_length(r),
        ends,
        book: book(r),
    }
}

/// Chooses b and c(i+1) so that c(i) allows them, then the rest of the cell.
fn fill_cell(r: &mut Random, c: &mut Columns, i: usize, style: &Style, still: bool) {
    let left = c.carried[i];
    // b covers the outflow to the left; a cell without outflow to the right also has to hold
    // all that came from the left
    let least = (-left).max(0);
    let most = DEEPEST as i64 - if still { left.max(0) } else { 0 };
    let base = (depth(r, style) as i64).clamp(least, most);
    // 0 ≤ h ≤ 4,000,000 and c(i+1) + L ≤ b
    let lowest = (base + left - DEEPEST as i64).max(-(DEEPEST as i64));
    let right = if still {
        0
    } else {
        carried(r, style, lowest, base - least)
    };
    let h = base + left - right;
    c.bed[i] = bed(r, style, i);
    c.base[i] = base as u64;
    c.depth[i] = h as u64;
    c.discharge[i] = discharge(r, style, h);
    c.nutrient[i] = nutrient(r, style, base as u64);
    c.carried[i + 1] = right;
}

fn depth(r: &mut Random, style: &Style) -> u64 {
    match r.below(12) {
        0 | 1 => 0,
        2 => 1 + r.below(20),
        3 => style.depth,
        _ => r.below(style.depth + 1),
    }
}

fn carried(r: &mut Random, style: &Style, least: i64, most: i64) -> i64 {
    let scale = style.depth as i64;
    match r.below(8) {
        0 => least,
        1 => most,
        2 | 3 => 0i64.clamp(least, most),
        4 => r.between(-3, 3).clamp(least, most),
        _ => r.between(-scale, scale).clamp(least, most),
    }
}

fn bed(r: &mut Random, style: &Style, i: usize) -> i64 {
    let slope = (i as i64 * style.bed / MOST_CELLS as i64) / 2;
    match r.below(6) {
        0 => r.between(-style.bed, style.bed),
        1 => style.bed,
        2 => -style.bed,
        _ => slope,
    }
}

fn discharge(r: &mut Random, style: &Style, h: i64) -> i64 {
    let most = FASTEST as i64 * h;
    match r.below(8) {
        0 => 0,
        1 => style.speed * h,
        2 => -style.speed * h,
        // a speed that is not whole
        _ => (r.between(-style.speed, style.speed) * h + r.between(-h, h)).clamp(-most, most),
    }
}

fn nutrient(r: &mut Random, style: &Style, b: u64) -> u64 {
    match r.below(8) {
        0 => 0,
        1 => RICHEST * b,
        2 => style.concentration * b,
        3 => r.below(style.concentration * b + 1),
        _ => (r.below(style.concentration + 1) * b + r.below(b + 1)).min(RICHEST * b),
    }
}

/// Strickler's coefficient: mostly none or one of 10..90, now and then beyond them.
pub fn strickler(r: &mut Random) -> u64 {
    match r.below(12) {
        0 | 1 => 0,
        2 => r.pick(&[10, 90]),
        3 => 1 + r.below(9),
        // the third would be sound if it were cut to 32 bits
        4 => {
            let above = 91 + r.below(1_000);
            r.pick(&[91, above, (1 << 32) + 30, 1 << 63, u64::MAX])
        }
        _ => 10 + r.below(81),
    }
}

fn cell_length(r: &mut Random) -> u64 {
    match r.below(6) {
        0 => LEAST_X,
        1 => MOST_X,
        2 => 1_000,
        _ => LEAST_X + r.below(MOST_X - LEAST_X + 1),
    }
}

/// A sound end of any kind.
pub fn end(r: &mut Random) -> End {
    let kind = r.pick(&[WALL, OPEN, FED]);
    end_of_kind(r, kind)
}

pub fn end_of_kind(r: &mut Random, kind: u32) -> End {
    let style = style(r);
    end_like(r, kind, &style)
}

fn end_like(r: &mut Random, kind: u32, style: &Style) -> End {
    let mut end = End {
        kind,
        ..End::default()
    };
    if kind != WALL {
        let any = r.below(RICHEST + 1);
        end.concentration = r.pick(&[0, RICHEST, style.concentration, any]);
    }
    if kind == FED {
        end.depth = depth(r, style).max(1);
        end.discharge = discharge(r, style, end.depth as i64);
    }
    end
}

/// A sound book, now and then with totals near 10^18.
fn book(r: &mut Random) -> Book {
    let mut totals = [0u64; 8];
    let (room, few) = match r.below(8) {
        0 => (4_000_000, 4),
        1 => (3_000_000_000_000, 4),
        2 => (MOST_TOTAL, 1),
        _ => return Book::default(),
    };
    for total in &mut totals {
        if r.one_in(few) {
            *total = MOST_TOTAL - r.below(room + 1);
        }
    }
    book_from(totals)
}

/// The totals in the order of `book_from`.
pub fn totals_mut(book: &mut Book) -> [&mut u64; 8] {
    let Book { left, right } = book;
    [
        &mut left.water_in,
        &mut left.water_out,
        &mut left.nutrient_in,
        &mut left.nutrient_out,
        &mut right.water_in,
        &mut right.water_out,
        &mut right.nutrient_in,
        &mut right.nutrient_out,
    ]
}

/// Left, then right, each in the order of `Totals`.
pub fn book_from(totals: [u64; 8]) -> Book {
    let side = |k: usize| Totals {
        water_in: totals[k],
        water_out: totals[k + 1],
        nutrient_in: totals[k + 2],
        nutrient_out: totals[k + 3],
    };
    Book {
        left: side(0),
        right: side(4),
    }
}
