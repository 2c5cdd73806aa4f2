//! The set-ups of section 6 of report 4529 in the library's units, and the step counts that the report prints.
//!
//! Depths, velocities and gravity stay as they are. Lengths and times of the dam breaks are scaled by one number: the equations do not notice,
//! so Froude numbers and step counts stay, and the greatest step of the report (5.2 s) comes within the library's 1,000 ms.

use crate::exact::DamBreak;

/// The report's concentrations have no unit; 1 of them is so many micrograms per litre here.
pub const CONCENTRATION_ONE: u64 = 100_000;

/// Depth behind each dam: the report's 1 m.
pub const LEFT_DEPTH: u64 = 1_000_000;

/// Concentrations .7, .5 and, in the peak, .9.
pub const LEFT: u64 = 70_000;
pub const RIGHT: u64 = 50_000;
pub const PEAK: u64 = 90_000;

/// Where the peak begins, in the report's metres; it ends at the dam.
pub const PEAK_EDGE: f64 = -100.0;

/// Cells of one length, with the dam at 0.
#[derive(Clone, Copy, Debug)]
pub struct Mesh {
    /// mm
    pub cell_length: u64,
    /// cells behind the dam and before it
    pub sides: [usize; 2],
    /// our lengths and times over the report's, as a fraction
    pub scale: (u64, u64),
}

impl Mesh {
    /// The report's 2,000 m in this many cells, an even number, at the scale at which 20 m have this length in mm.
    pub const fn new(cells: usize, twenty_metres: u64) -> Mesh {
        Mesh {
            cell_length: 100 * twenty_metres / cells as u64,
            sides: [cells / 2; 2],
            scale: (twenty_metres, 20_000),
        }
    }
}

/// The report's mesh. Its 101 points, taken as the interfaces of its section 3.2, bound 100 cells of 20 m with the dam between the middle two.
/// 3,600 mm are nearly the most: the first step takes 938 ms, so that cutting it to whole ms costs least.
pub const MESH: Mesh = Mesh::new(100, 3_600);

/// The other ways to read the 101 points: as centres, with the cell around 0 behind the dam or before it.
pub const BY_CENTRES: [Mesh; 2] = [
    Mesh {
        sides: [51, 50],
        ..MESH
    },
    Mesh {
        sides: [50, 51],
        ..MESH
    },
];

/// The end times of 6.1 and 6.2, in the report's ms.
const DAM_TIME: u64 = 240_000;
const PEAK_TIME: u64 = 250_000;

/// A line of the report's table 1.
#[derive(Clone, Copy, Debug)]
pub struct Row {
    /// h_r, in micrometres
    pub right_depth: u64,
    pub froude: f64,
    pub transport: u32,
    pub hydrodynamic: u32,
}

const fn row(right_depth: u64, froude: f64, transport: u32, hydrodynamic: u32) -> Row {
    Row {
        right_depth,
        froude,
        transport,
        hydrodynamic,
    }
}

pub const TABLE_1: [Row; 5] = [
    row(950_000, 0.026, 1, 47),
    row(800_000, 0.112, 5, 48),
    row(500_000, 0.346, 13, 51),
    row(100_000, 1.178, 29, 57),
    row(10_000, 2.834, 62, 62),
];

/// The regular mesh of the report's table 2: the peak of 6.2.
pub const PEAK_ROW: Row = row(500_000, 0.346, 13, 53);

/// What a run starts from: still water between two walls.
#[derive(Clone, Debug)]
pub struct Case {
    /// mm
    pub cell_length: u64,
    /// left edge of the first cell, mm
    pub left_edge: i64,
    /// ms
    pub end_time: u64,
    /// our lengths and times over the report's
    pub scale: f64,
    /// micrometres
    pub bed: Vec<i64>,
    /// micrometres
    pub depth: Vec<u64>,
    /// micrograms per litre
    pub concentration: Vec<u64>,
}

impl Case {
    pub fn cells(&self) -> usize {
        self.bed.len()
    }

    /// The end time in the report's seconds.
    pub fn seconds(&self) -> f64 {
        self.end_time as f64 / 1e3 / self.scale
    }

    /// The length of a cell in the report's metres.
    pub fn cell_metres(&self) -> f64 {
        self.cell_length as f64 / 1e3 / self.scale
    }

    /// The middle of a cell in the report's metres.
    pub fn metres(&self, cell: usize) -> f64 {
        let left = self.left_edge as f64 / 1e3 / self.scale;
        left + self.cell_metres() * (cell as f64 + 0.5)
    }

    /// The report's concentration at a place, in its metres, before the run.
    pub fn concentration_before(&self, metres: f64) -> f64 {
        let cell = (metres * 1e3 * self.scale - self.left_edge as f64) / self.cell_length as f64;
        let cell = (cell.max(0.0) as usize).min(self.cells() - 1);
        reports(self.concentration[cell])
    }
}

/// A concentration as the report has it.
pub fn reports(concentration: u64) -> f64 {
    concentration as f64 / CONCENTRATION_ONE as f64
}

/// The exact solution of the dam break with this depth before the dam.
pub fn exact(right_depth: u64) -> DamBreak {
    DamBreak::new(LEFT_DEPTH as f64 / 1e6, right_depth as f64 / 1e6)
}

/// A dam break over a flat bed with this depth before the dam. Times are the report's, in ms.
fn dam(mesh: Mesh, right_depth: u64, end_time: u64) -> Case {
    let [behind, before] = mesh.sides;
    let halves = |l, r| [vec![l; behind], vec![r; before]].concat();
    let (ours, reports) = mesh.scale;
    Case {
        cell_length: mesh.cell_length,
        left_edge: -((behind as u64 * mesh.cell_length) as i64),
        end_time: end_time * ours / reports,
        scale: ours as f64 / reports as f64,
        bed: vec![0; behind + before],
        depth: halves(LEFT_DEPTH, right_depth),
        concentration: halves(LEFT, RIGHT),
    }
}

/// The dam break of 6.1 after 240 s.
pub fn dam_break(mesh: Mesh, right_depth: u64) -> Case {
    dam(mesh, right_depth, DAM_TIME)
}

/// The peak of 6.2 after 250 s: 100 m of concentration .9 behind the dam.
pub fn peak() -> Case {
    let mut case = dam(MESH, PEAK_ROW.right_depth, PEAK_TIME);
    for cell in 0..case.cells() {
        if (PEAK_EDGE..0.0).contains(&case.metres(cell)) {
            case.concentration[cell] = PEAK;
        }
    }
    case
}

/// The lake of 6.3 after 100 s, in its own lengths and times: 20 m, level 1 m, a hump from 8 m to 12 m, polluted from 8 m to 10 m.
///
/// The report sets h = H = 1 over the hump as well; water of that shape is no lake at rest, so H is taken as the level.
pub fn lake() -> Case {
    let cells = 100;
    let mut case = Case {
        cell_length: 200,
        left_edge: 0,
        end_time: 100_000,
        scale: 1.0,
        bed: vec![0; cells],
        depth: vec![LEFT_DEPTH; cells],
        concentration: vec![0; cells],
    };
    for cell in 0..cells {
        let x = case.cell_length as i64 * cell as i64 + 100;
        if (8_000..=12_000).contains(&x) {
            // 0.2 - 0.05 (x - 10)^2 in metres; x is an odd multiple of 100 mm, so nothing is cut
            case.bed[cell] = 200_000 - 5 * (x - 10_000).pow(2) / 100;
            case.depth[cell] -= case.bed[cell] as u64;
        }
        if (8_000..=10_000).contains(&x) {
            case.concentration[cell] = CONCENTRATION_ONE;
        }
    }
    case
}
