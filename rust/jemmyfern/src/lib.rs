//! A reach of an irrigation canal in whole units: depth, discharge and mass along its cells, a ledger of what passed its two boundaries, and
//! outlets that draw water from its cells.
//!
//! The calls are proved (see the repository's README for what that covers); this crate lends them the caller's slices and turns the paper's
//! numbers of refusal into an enum. Nothing is allocated, and no standard library is needed. The words are those of the field; where the paper
//! has another, it stands once in quotes at the definition.
//!
//! Units: bed level and depth in micrometres, discharge = depth times velocity in micrometres times mm/s, cell length in mm, time step in ms,
//! concentration in micrograms per litre, mass in grains (one micrometre of depth at concentration 1), Strickler's coefficient of a bed with
//! friction in m^(1/3)/s.
//!
//! ```no_run
//! use jemmyfern::{Columns, Outlet, Reach};
//! # fn main() -> Result<(), Box<dyn std::error::Error>> {
//! let sheet = std::fs::read("reach.sheet")?;
//! let (mut bed, mut depth, mut discharge) = ([0; 40], [0; 40], [0; 40]);
//! let (mut mass, mut base, mut carried) = ([0; 40], [0; 40], [0; 41]);
//! let columns = Columns {
//!     bed: &mut bed,
//!     depth: &mut depth,
//!     discharge: &mut discharge,
//!     mass: &mut mass,
//!     base: &mut base,
//!     carried: &mut carried,
//! };
//! let mut outlets = [Outlet::new(20, 500)]; // 500 micrometres per step from the cell in the middle
//! let mut reach = Reach::open(&sheet, columns, &mut outlets)?; // a sheet of 40 cells
//! let t = reach.greatest_step()?.time;
//! reach.step(t)?; // without friction
//! reach.set_want(0, 0); // it is closed again
//! let t = reach.greatest_step()?.time;
//! reach.step_with_friction(t, 35)?; // a bed of earth
//! reach.transport()?;
//! println!("{:?} {:?}", reach.ledger, reach.outlets());
//! # Ok(())
//! # }
//! ```

#![cfg_attr(not(test), no_std)]

#[cfg(test)]
mod header;
mod raw;

use core::fmt;

/// The greatest number of cells.
pub const CELLS_MOST: usize = 512;

/// The greatest depth of a cell or a fed boundary, and size of carried water, micrometres.
pub const DEPTH_MOST: u64 = 4_000_000;

/// The greatest size of a velocity, mm/s: a discharge is at most this times the depth.
pub const VELOCITY_MOST: u64 = 8_000;

/// The greatest size of a bed level, micrometres.
pub const BED_MOST: u64 = 100_000_000;

/// The greatest concentration, micrograms per litre: a mass is at most this times the base depth.
pub const CONCENTRATION_MOST: u64 = 500_000;

/// The least and the greatest cell length, mm.
pub const CELL_LENGTH_LEAST: u64 = 100;
pub const CELL_LENGTH_MOST: u64 = 100_000;

/// The greatest time step, ms.
pub const TIME_STEP_MOST: u64 = 1_000;

/// The least and the greatest Strickler coefficient of a bed with friction, m^(1/3)/s; without friction it is 0.
pub const STRICKLER_LEAST: u64 = 10;
pub const STRICKLER_MOST: u64 = 90;

/// The greatest number of outlets.
pub const OUTLETS_MOST: usize = 32;

/// The greatest depth that an outlet wants per step, micrometres.
pub const WANT_MOST: u64 = 4_000_000;

/// The greatest total of a ledger or an outlet.
pub const TOTAL_MOST: u64 = 1_000_000_000_000_000_000;

/// Bytes of the sheet of `cells` cells.
pub const fn sheet_size(cells: usize) -> usize {
    80 + 24 * cells
}

/// The number of cells that a sheet says it has, to size the columns lent to its opening; 0 where it says none that can be. The opening
/// looks again.
pub fn cells_in(sheet: &[u8]) -> usize {
    let field = sheet.get(8..12).and_then(|bytes| bytes.try_into().ok());
    let n = field.map_or(0, u32::from_le_bytes) as usize;
    if n <= CELLS_MOST {
        n
    } else {
        0
    }
}

/// What lies beyond one side of the reach, the paper's 'end'.
#[repr(C)]
#[derive(Clone, Copy, Debug, PartialEq, Eq, Default)]
pub struct Boundary {
    /// 0 wall, 1 open, 2 fed
    pub kind: u32,
    /// always 0, the paper's 'zero field'
    pub reserved: u32,
    /// micrometres; of a fed boundary alone
    pub depth: u64,
    /// micrograms per litre; of a fed or an open boundary
    pub concentration: u64,
    /// micrometres times mm/s, positive rightwards; of a fed boundary alone
    pub discharge: i64,
}

impl Boundary {
    /// No water passes.
    pub const WALL: Boundary = Boundary {
        kind: 0,
        reserved: 0,
        depth: 0,
        concentration: 0,
        discharge: 0,
    };

    /// Water passes as if the reach went on; what comes in has this concentration.
    pub const fn open(concentration: u64) -> Boundary {
        Boundary {
            kind: 1,
            concentration,
            ..Boundary::WALL
        }
    }

    /// Water of this depth, discharge and concentration stands there.
    pub const fn fed(depth: u64, discharge: i64, concentration: u64) -> Boundary {
        Boundary {
            kind: 2,
            reserved: 0,
            depth,
            concentration,
            discharge,
        }
    }
}

/// What passed one boundary since the opening: water in micrometres of depth of a cell, mass in grains.
#[repr(C)]
#[derive(Clone, Copy, Debug, PartialEq, Eq, Default)]
pub struct Totals {
    pub water_in: u64,
    pub water_out: u64,
    pub mass_in: u64,
    pub mass_out: u64,
}

/// What passed both boundaries since the opening, the paper's 'book'.
#[repr(C)]
#[derive(Clone, Copy, Debug, PartialEq, Eq, Default)]
pub struct Ledger {
    pub left: Totals,
    pub right: Totals,
}

/// An outlet: draws water from one cell. Several may draw from the same cell.
///
/// What a cell can give in a step is its depth before the step less what the step sends out of it to either side. Where the wants of its outlets
/// fit into that, each has its want; where not, they share it in proportion, the units left going singly in list order.
#[repr(C)]
#[derive(Clone, Copy, Debug, PartialEq, Eq, Default)]
pub struct Outlet {
    /// counted from 0
    pub cell: u64,
    /// the depth that it wants per step, 0..4,000,000 micrometres; the one field that the caller may change between calls
    pub want: u64,
    /// what it drew since the last transport, micrometres
    pub drawn: u64,
    /// what it drew since the opening, micrometres of depth of a cell: grows with each step
    pub water: u64,
    /// the mass that went with it since the opening, the paper's 'nutrient', grains: grows with each transport, also one that a step makes
    pub mass: u64,
}

impl Outlet {
    /// An outlet to lend to an opening: it has drawn nothing yet.
    pub const fn new(cell: u64, want: u64) -> Outlet {
        Outlet {
            cell,
            want,
            drawn: 0,
            water: 0,
            mass: 0,
        }
    }
}

/// Why a call was refused: the first of the paper's grounds, in its order, that the call does not stand. A refused call has changed nothing.
/// The order is that of the numbers, but 16 comes after 7 and 17 after 10.
#[derive(Clone, Copy, Debug, PartialEq, Eq, PartialOrd, Ord, Hash)]
#[repr(u32)]
pub enum Refusal {
    /// The sheet is under 80 bytes or its edition is not 1.
    Edition = 1,
    /// n is outside 1..512, or the length field is not both the bytes given and 80+24n.
    Size = 2,
    /// An offset is under 80, a column passes the end, or two columns overlap.
    Layout = 3,
    /// The bed column's length is outside 1..512 (at opening: is not n), or another column's does not fit it.
    Lengths = 4,
    /// The cell length is outside 100..100,000 mm.
    CellLength = 5,
    /// A boundary, held or newly given, breaks its kind, or its reserved field is not 0.
    Boundaries = 6,
    /// A cell value is out of range.
    Values = 7,
    /// The carried or drawn water breaks its rules.
    Carried = 8,
    /// A total of the ledger or of an outlet exceeds 10^18.
    Ledger = 9,
    /// The time step is outside 1..1,000 ms.
    TimeStep = 10,
    /// The time step is too long for the fastest cell or fed boundary (CFL).
    Cfl = 11,
    /// A new depth would exceed 4,000,000 micrometres.
    Depth = 12,
    /// A total of the ledger or of an outlet would pass 10^18 by this call.
    Total = 13,
    /// Writing: some carried or drawn water is not 0; transport first.
    NotTransported = 14,
    /// The output is shorter than the sheet.
    ShortOutput = 15,
    /// There are over 32 outlets, an outlet's cell is not in the reach, or its want is above 4,000,000. Comes after 7.
    Outlets = 16,
    /// The Strickler coefficient is neither 0 nor 10..90. Comes after 10.
    Strickler = 17,
}

impl Refusal {
    pub const ALL: [Refusal; 17] = [
        Refusal::Edition,
        Refusal::Size,
        Refusal::Layout,
        Refusal::Lengths,
        Refusal::CellLength,
        Refusal::Boundaries,
        Refusal::Values,
        Refusal::Carried,
        Refusal::Ledger,
        Refusal::TimeStep,
        Refusal::Cfl,
        Refusal::Depth,
        Refusal::Total,
        Refusal::NotTransported,
        Refusal::ShortOutput,
        Refusal::Outlets,
        Refusal::Strickler,
    ];

    /// The paper's number.
    pub const fn number(self) -> u32 {
        self as u32
    }

    /// The ground in words.
    pub const fn words(self) -> &'static str {
        match self {
            Refusal::Edition => "the sheet is under 80 bytes or its edition is not 1",
            Refusal::Size => "the number of cells is outside 1..512, or the length field is not both the bytes given and 80 + 24 a cell",
            Refusal::Layout => "an offset is under 80, a column passes the end, or two columns overlap",
            Refusal::Lengths => "the lent columns do not have the lengths that the cells want",
            Refusal::CellLength => "the cell length is outside 100..100000 mm",
            Refusal::Boundaries => "a boundary breaks the rules of its kind",
            Refusal::Values => "a cell value is out of range",
            Refusal::Carried => "the carried or drawn water breaks its rules",
            Refusal::Ledger => "a total of the ledger or of an outlet exceeds 10^18",
            Refusal::TimeStep => "the time step is outside 1..1000 ms",
            Refusal::Cfl => "the time step is too long for the fastest water (CFL)",
            Refusal::Depth => "a depth would exceed 4000000 micrometres",
            Refusal::Total => "a total of the ledger or of an outlet would pass 10^18 by this call",
            Refusal::NotTransported => "some carried or drawn water is not 0; transport before writing",
            Refusal::ShortOutput => "the output is shorter than the sheet",
            Refusal::Outlets => "there are over 32 outlets, or an outlet's cell is not in the reach, or its want is above 4000000",
            Refusal::Strickler => "the Strickler coefficient is neither 0 nor 10..90",
        }
    }

    /// The ground of a number of the paper's list.
    pub fn from_number(number: u32) -> Option<Refusal> {
        Refusal::ALL.into_iter().find(|r| r.number() == number)
    }
}

impl fmt::Display for Refusal {
    fn fmt(&self, f: &mut fmt::Formatter<'_>) -> fmt::Result {
        write!(f, "refused {}: {}", self.number(), self.words())
    }
}

impl core::error::Error for Refusal {}

/// The columns that the caller lends: n entries each, n + 1 of carried water.
#[derive(Debug)]
pub struct Columns<'a> {
    /// bed level z of each cell, the paper's 'bottom', -100,000,000..100,000,000 micrometres
    pub bed: &'a mut [i64],
    /// depth h, 0..4,000,000 micrometres
    pub depth: &'a mut [u64],
    /// discharge q, at most 8,000 times the depth either way
    pub discharge: &'a mut [i64],
    /// mass m, the paper's 'nutrient', at most 500,000 times the base depth
    pub mass: &'a mut [u64],
    /// base depth b: the depth at the last transport
    pub base: &'a mut [u64],
    /// carried water c of each interface since the last transport, positive rightwards
    pub carried: &'a mut [i64],
}

/// What an accepted step tells beside the new record.
#[derive(Clone, Copy, Debug, PartialEq, Eq)]
pub struct Stepped {
    /// a transport came before the step
    pub transported: bool,
}

/// The greatest time step that the record allows.
#[derive(Clone, Copy, Debug, PartialEq, Eq)]
pub struct Greatest {
    /// ms, 1..1,000
    pub time: u64,
    /// where the water is fastest: 0 the left boundary, 1..n the cells, n + 1 the right boundary. The highest place among equals. A boundary
    /// that is not fed counts as 0, so that the place is n + 1 where all cells are dry and no boundary is fed
    pub place: usize,
}

/// An open reach: the lent columns and outlets, and what travels with them from call to call. A sheet holds no ledger and no outlets: each opening
/// starts all totals at 0.
#[derive(Debug)]
pub struct Reach<'a> {
    pub columns: Columns<'a>,
    /// at most 32; between calls only a `want` may be changed, see [`Reach::set_want`]
    pub outlets: &'a mut [Outlet],
    /// mm
    pub cell_length: u64,
    /// left, right
    pub boundaries: [Boundary; 2],
    pub ledger: Ledger,
}

/// The library's numbers are 0 to 17, and that is proved.
fn refused(number: u32) -> Result<(), Refusal> {
    match number {
        0 => Ok(()),
        _ => Err(Refusal::from_number(number).expect("a ground of the list")),
    }
}

/// Calls a C function with the record: `$water` and `$slice` say how depth and discharge, and how the other three columns and the outlets are lent.
macro_rules! call {
    ($function:ident, $reach:expr, $water:ident, $slice:ident $(, $more:expr)*) => {{
        let Reach { columns: c, outlets, cell_length, boundaries, ledger } = $reach;
        // SAFETY: each pointer comes with the length of its slice (of an empty one it is aligned and not read); no two overlap, since the
        // columns, the outlets and the output are lent exclusively
        unsafe {
            raw::$function(
                c.bed.as_ptr(), c.bed.len(),
                c.depth.$water(), c.depth.len(),
                c.discharge.$water(), c.discharge.len(),
                c.mass.$slice(), c.mass.len(),
                c.base.$slice(), c.base.len(),
                c.carried.$slice(), c.carried.len(),
                outlets.$slice(), outlets.len(),
                *cell_length, raw::Boundaries { boundaries: *boundaries }, *ledger $(, $more)*
            )
        }
    }};
}

impl<'a> Reach<'a> {
    /// Opens a sheet into the lent columns, which must have the lengths of its cells, with these outlets; without any it is lent `&mut []`. Cell
    /// and want of an outlet stay, what it has drawn and its totals become 0. A refused opening leaves columns and outlets as they came.
    pub fn open(
        sheet: &[u8],
        columns: Columns<'a>,
        outlets: &'a mut [Outlet],
    ) -> Result<Reach<'a>, Refusal> {
        let c = columns;
        // SAFETY: as in `call`
        let o = unsafe {
            raw::jemmyfern_open(
                sheet.as_ptr(),
                sheet.len(),
                c.bed.as_mut_ptr(),
                c.bed.len(),
                c.depth.as_mut_ptr(),
                c.depth.len(),
                c.discharge.as_mut_ptr(),
                c.discharge.len(),
                c.mass.as_mut_ptr(),
                c.mass.len(),
                c.base.as_mut_ptr(),
                c.base.len(),
                c.carried.as_mut_ptr(),
                c.carried.len(),
                outlets.as_mut_ptr(),
                outlets.len(),
            )
        };
        refused(o.refusal)?;
        Ok(Reach {
            columns: c,
            outlets,
            cell_length: o.cell_length,
            boundaries: o.boundaries,
            ledger: o.ledger,
        })
    }

    /// The number of cells.
    pub fn cells(&self) -> usize {
        self.columns.bed.len()
    }

    /// The outlets, with what they drew.
    pub fn outlets(&self) -> &[Outlet] {
        self.outlets
    }

    /// Changes what an outlet wants per step, from the next call on; that call looks whether it is in range. Panics where there is no such outlet.
    pub fn set_want(&mut self, outlet: usize, want: u64) {
        self.outlets[outlet].want = want;
    }

    /// One water step of `t` ms without friction, in which outlets draw, with a transport before it where the paper's test asks for one.
    pub fn step(&mut self, t: u64) -> Result<Stepped, Refusal> {
        self.step_with_friction(t, 0)
    }

    /// A step over a bed with this Strickler coefficient F, 10..90 m^(1/3)/s, or 0 for no friction. A large F is a smooth bed: concrete has
    /// about 60 to 80, earth about 30 to 40, a bed full of weeds about 15 to 25.
    ///
    /// The new discharge of a cell is divided by `1 + g t |u| / (F² h^(4/3))`, all in metres and seconds, and rounded towards zero, before it is
    /// brought into its range; `u` is the velocity before the step and `h` the depth after it, down to whole centimetres. Where F is not 0, a cell under 1 cm deep has discharge 0 after the step. Friction touches
    /// discharges alone, and the greatest step does not ask for it.
    pub fn step_with_friction(&mut self, t: u64, strickler: u64) -> Result<Stepped, Refusal> {
        let reach = &mut *self;
        let a = call!(jemmyfern_step, reach, as_mut_ptr, as_mut_ptr, t, strickler);
        refused(a.refusal)?;
        (self.boundaries, self.ledger) = (a.boundaries, a.ledger);
        Ok(Stepped {
            transported: a.transported,
        })
    }

    /// A transport, the paper's 'settling': moves the mass with the water carried and drawn since the last one.
    pub fn transport(&mut self) -> Result<(), Refusal> {
        let a = call!(jemmyfern_transport, &mut *self, as_ptr, as_mut_ptr);
        self.take(a)
    }

    /// Sets both boundaries, the paper's 'end setting', after a transport under those held so far.
    pub fn set_boundaries(&mut self, boundaries: [Boundary; 2]) -> Result<(), Refusal> {
        let new = raw::Boundaries { boundaries };
        let a = call!(
            jemmyfern_set_boundaries,
            &mut *self,
            as_ptr,
            as_mut_ptr,
            new
        );
        self.take(a)
    }

    fn take(&mut self, a: raw::Answer) -> Result<(), Refusal> {
        refused(a.refusal)?;
        (self.boundaries, self.ledger) = (a.boundaries, a.ledger);
        Ok(())
    }

    /// The greatest time step that the record allows now, and where the water is fastest: the highest place among equals.
    ///
    /// A step `t` passes where `t * (|u| + a) <= 1000 * cell_length` ([`Refusal::Cfl`]) in each cell and each fed boundary, with the velocity `u`, cut
    /// towards zero, and the wave speed `a`, the root of 3gh/2 rounded up, both in whole mm/s; g is 9.80665 m/s².
    pub fn greatest_step(&self) -> Result<Greatest, Refusal> {
        let a = call!(jemmyfern_greatest_step, self, as_ptr, as_ptr);
        refused(a.refusal)?;
        Ok(Greatest {
            time: a.time,
            place: a.place,
        })
    }

    /// Writes the record as a sheet at the start of `out`, and tells the sheet's length; bytes behind it keep their values. Transport first.
    pub fn write(&self, out: &mut [u8]) -> Result<usize, Refusal> {
        let a = call!(
            jemmyfern_write,
            self,
            as_ptr,
            as_ptr,
            out.as_mut_ptr(),
            out.len()
        );
        refused(a.refusal)?;
        Ok(sheet_size(self.cells()))
    }
}
