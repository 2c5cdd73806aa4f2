//! What a record holds, and grounds 4 to 9 with 16 ("What a record holds", "Grounds for refusal").

use crate::outlet::{drawn_at, list_sound, totals_sound, Outlet};

/// n is 1..512
pub const MOST_CELLS: usize = 512;
/// X is 100..100,000 mm
pub const LEAST_X: u64 = 100;
pub const MOST_X: u64 = 100_000;
/// bed level −100,000,000..100,000,000 µm
pub const BED_LIMIT: i64 = 100_000_000;
/// depth, base depth and |carried water| at most 4,000,000 µm
pub const DEEPEST: u64 = 4_000_000;
/// |discharge| at most 8,000 mm/s times depth
pub const FASTEST: u64 = 8_000;
/// concentration at most 500,000 µg/l
pub const RICHEST: u64 = 500_000;
/// each book total at most 10^18
pub const MOST_TOTAL: u64 = 1_000_000_000_000_000_000;

pub const WALL: u32 = 0;
pub const OPEN: u32 = 1;
pub const FED: u32 = 2;

/// Setting of one end of the reach.
#[derive(Clone, Copy, Debug, PartialEq, Eq, Default)]
pub struct End {
    /// 0 wall, 1 open, 2 fed
    pub kind: u32,
    /// µm
    pub depth: u64,
    /// µg/l
    pub concentration: u64,
    /// always 0
    pub zero: u32,
    /// µm·mm/s
    pub discharge: i64,
}

/// What passed one end since opening: water in µm, nutrient in grains.
#[derive(Clone, Copy, Debug, PartialEq, Eq, Default)]
pub struct Totals {
    pub water_in: u64,
    pub water_out: u64,
    pub nutrient_in: u64,
    pub nutrient_out: u64,
}

#[derive(Clone, Copy, Debug, PartialEq, Eq, Default)]
pub struct Book {
    pub left: Totals,
    pub right: Totals,
}

/// The lent columns: n entries each, `carried` n+1. Wrong lengths are ground 4.
#[derive(Clone, Debug, PartialEq, Eq, Default)]
pub struct Columns {
    /// bed level z, µm
    pub bed: Vec<i64>,
    /// depth h, µm
    pub depth: Vec<u64>,
    /// discharge q, µm·mm/s, positive rightwards
    pub discharge: Vec<i64>,
    /// nutrient m, grains
    pub nutrient: Vec<u64>,
    /// base depth b: depth at the last settling, µm
    pub base: Vec<u64>,
    /// carried water c of interfaces 0..n, µm, positive rightwards
    pub carried: Vec<i64>,
}

/// Answer of a settling or an end setting; refusal 0 means accepted.
#[derive(Clone, Copy, Debug, PartialEq, Eq)]
pub struct Answer {
    pub refusal: u32,
    pub ends: [End; 2],
    pub book: Book,
}

impl Columns {
    /// Columns that fit a reach of n cells, all zero.
    pub fn of_cells(n: usize) -> Columns {
        Columns {
            bed: vec![0; n],
            depth: vec![0; n],
            discharge: vec![0; n],
            nutrient: vec![0; n],
            base: vec![0; n],
            carried: vec![0; n + 1],
        }
    }

    /// Every column but the bed fits n cells.
    pub fn fit(&self, n: usize) -> bool {
        self.depth.len() == n
            && self.discharge.len() == n
            && self.nutrient.len() == n
            && self.base.len() == n
            && self.carried.len() == n + 1
    }
}

impl Book {
    /// The book after these gains. 13: "A total would pass 10^18 by this call."
    /// A sound total and a call's gain are each at most 10^18, so no sum overflows.
    pub fn gain(&self, gains: &Book) -> Result<Book, u32> {
        let sum = Book {
            left: self.left.plus(&gains.left),
            right: self.right.plus(&gains.right),
        };
        ground(13, sum.sound())?;
        Ok(sum)
    }

    fn sound(&self) -> bool {
        self.left.sound() && self.right.sound()
    }
}

impl Totals {
    fn plus(&self, gains: &Totals) -> Totals {
        Totals {
            water_in: self.water_in + gains.water_in,
            water_out: self.water_out + gains.water_out,
            nutrient_in: self.nutrient_in + gains.nutrient_in,
            nutrient_out: self.nutrient_out + gains.nutrient_out,
        }
    }

    fn sound(&self) -> bool {
        self.water_in <= MOST_TOTAL
            && self.water_out <= MOST_TOTAL
            && self.nutrient_in <= MOST_TOTAL
            && self.nutrient_out <= MOST_TOTAL
    }
}

/// Refuses with this number unless the rule is kept.
pub fn ground(number: u32, kept: bool) -> Result<(), u32> {
    if kept {
        Ok(())
    } else {
        Err(number)
    }
}

/// Grounds 4 to 9 in checking order, 16 "checked after 7"; gives n. `given` are ends newly given
/// to an end setting.
pub fn check(
    c: &Columns,
    outlets: &[Outlet],
    x: u64,
    ends: &[End; 2],
    given: &[End],
    book: &Book,
) -> Result<usize, u32> {
    let n = c.bed.len();
    ground(4, (1..=MOST_CELLS).contains(&n) && c.fit(n))?;
    ground(5, length_sound(x))?;
    ground(6, ends.iter().all(end_sound))?;
    ground(6, given.iter().all(end_sound))?;
    ground(7, (0..n).all(|i| cell_sound(c, i)))?;
    ground(16, list_sound(outlets, n))?;
    ground(8, carried_sound(c, outlets, ends))?;
    ground(9, book.sound() && totals_sound(outlets))?;
    Ok(n)
}

/// 5: "X is out of range."
pub fn length_sound(x: u64) -> bool {
    (LEAST_X..=MOST_X).contains(&x)
}

/// 6: "An end [...] breaks its kind, or its zero field is not 0."
pub fn end_sound(e: &End) -> bool {
    let rich = e.concentration <= RICHEST;
    e.zero == 0
        && match e.kind {
            WALL => e.depth == 0 && e.discharge == 0 && e.concentration == 0,
            OPEN => e.depth == 0 && e.discharge == 0 && rich,
            // the depth comes first, so that its multiple cannot overflow
            FED => {
                (1..=DEEPEST).contains(&e.depth)
                    && e.discharge.unsigned_abs() <= FASTEST * e.depth
                    && rich
            }
            _ => false,
        }
}

/// 7: "A cell value is out of range."
fn cell_sound(c: &Columns, i: usize) -> bool {
    values_sound(
        c.bed[i],
        c.depth[i],
        c.discharge[i],
        c.nutrient[i],
        c.base[i],
    )
}

/// Ranges of one cell. Both depths come first, so that their multiples cannot overflow.
pub fn values_sound(z: i64, h: u64, q: i64, m: u64, b: u64) -> bool {
    (-BED_LIMIT..=BED_LIMIT).contains(&z)
        && h <= DEEPEST
        && b <= DEEPEST
        && q.unsigned_abs() <= FASTEST * h
        && m <= RICHEST * b
}

/// "max(c(i+1),0) + max(−c(i),0)": what leaves a cell between settlings, µm.
#[inline]
pub fn outflow(left: i64, right: i64) -> u64 {
    (right.max(0) + (-left).max(0)) as u64
}

/// 8: "The carried water breaks its rules", drawn water included. Ranges come first: later sums
/// stay small.
fn carried_sound(c: &Columns, outlets: &[Outlet], ends: &[End; 2]) -> bool {
    let n = c.bed.len();
    c.carried.iter().all(|w| w.unsigned_abs() <= DEEPEST)
        && (0..n).all(|i| {
            let (left, right) = (c.carried[i], c.carried[i + 1]);
            let drawn = drawn_at(outlets, i);
            drawn <= u128::from(c.base[i])
                && c.depth[i] as i64 == c.base[i] as i64 + left - right - drawn as i64
                && outflow(left, right) + drawn as u64 <= c.base[i]
        })
        && (ends[0].kind != WALL || c.carried[0] == 0)
        && (ends[1].kind != WALL || c.carried[n] == 0)
}
