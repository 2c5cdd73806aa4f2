//! A controller's loop: opens a sheet, follows an hour of canal time with the greatest steps, changes the dose at the head twice, prints what
//! passed the boundaries, writes the sheet and opens it again. What it prints keeps the paper's words: a settling is a transport, nutrient is
//! mass. With WANT two outlets, a third and two thirds down the reach, each want so many micrometres per step until the second dose, when the
//! first of them is closed. With STRICKLER the bed has friction of that coefficient, 10 to 90; 0 is none.
//!
//!     controller IN.sheet OUT.sheet [WANT [STRICKLER]]

use jemmyfern::{cells_in, sheet_size, Boundary, Columns, Outlet, Reach, Totals, CELLS_MOST};
use std::error::Error;
use std::fmt;
use std::process::ExitCode;

const HOUR_MS: u64 = 3_600_000;

/// Doses from the first and from the second third of the hour on, micrograms per litre.
const DOSES: [(u64, u64); 2] = [(HOUR_MS / 3, 40_000), (HOUR_MS / 3 * 2, 500)];

/// All the memory of a record: the columns that every call is lent.
struct Memory {
    bed: [i64; CELLS_MOST],
    depth: [u64; CELLS_MOST],
    discharge: [i64; CELLS_MOST],
    mass: [u64; CELLS_MOST],
    base: [u64; CELLS_MOST],
    carried: [i64; CELLS_MOST + 1],
}

impl Memory {
    const fn new() -> Memory {
        Memory {
            bed: [0; CELLS_MOST],
            depth: [0; CELLS_MOST],
            discharge: [0; CELLS_MOST],
            mass: [0; CELLS_MOST],
            base: [0; CELLS_MOST],
            carried: [0; CELLS_MOST + 1],
        }
    }

    /// The columns of n cells.
    fn lend(&mut self, n: usize) -> Columns<'_> {
        Columns {
            bed: &mut self.bed[..n],
            depth: &mut self.depth[..n],
            discharge: &mut self.discharge[..n],
            mass: &mut self.mass[..n],
            base: &mut self.base[..n],
            carried: &mut self.carried[..n + 1],
        }
    }
}

/// A file that could not be read or written.
#[derive(Debug)]
struct NoFile(String);

impl fmt::Display for NoFile {
    fn fmt(&self, f: &mut fmt::Formatter<'_>) -> fmt::Result {
        f.write_str(&self.0)
    }
}

impl Error for NoFile {}

/// The head's dose: the left boundary as it is, with another concentration.
fn with_dose(boundaries: [Boundary; 2], concentration: u64) -> [Boundary; 2] {
    let head = Boundary {
        concentration,
        ..boundaries[0]
    };
    [head, boundaries[1]]
}

fn print_totals(side: &str, t: &Totals) {
    println!(
        "{side} water in {} out {} nutrient in {} out {}",
        t.water_in, t.water_out, t.mass_in, t.mass_out
    );
}

/// An hour of canal time over a bed with this Strickler coefficient; tells the steps and the transports.
fn follow(reach: &mut Reach, strickler: u64) -> Result<(u64, u64), Box<dyn Error>> {
    let mut doses = DOSES.iter().peekable();
    let (mut elapsed, mut steps, mut transports) = (0, 0, 0);
    while elapsed < HOUR_MS {
        if let Some((_, dose)) = doses.next_if(|(from, _)| elapsed >= *from) {
            reach.set_boundaries(with_dose(reach.boundaries, *dose))?;
            transports += 1;
            if doses.peek().is_none() && !reach.outlets().is_empty() {
                reach.set_want(0, 0);
            }
        }
        let t = reach.greatest_step()?.time.min(HOUR_MS - elapsed);
        transports += u64::from(reach.step_with_friction(t, strickler)?.transported);
        elapsed += t;
        steps += 1;
    }
    reach.transport()?;
    Ok((steps, transports + 1))
}

/// Everything that a sheet holds is the same.
fn same_record(a: &Reach, b: &Reach) -> bool {
    let (c, d) = (&a.columns, &b.columns);
    (a.cell_length, a.boundaries) == (b.cell_length, b.boundaries)
        && (&*c.bed, &*c.depth, &*c.discharge) == (&*d.bed, &*d.depth, &*d.discharge)
        && (&*c.mass, &*c.base, &*c.carried) == (&*d.mass, &*d.base, &*d.carried)
}

/// Two outlets along n cells, or none.
fn outlets(n: u64, want: Option<u64>) -> Vec<Outlet> {
    let cells = [n / 3, 2 * n / 3];
    want.map_or(vec![], |want| {
        cells.map(|cell| Outlet::new(cell, want)).into()
    })
}

fn run(from: &str, to: &str, want: Option<u64>, strickler: u64) -> Result<(), Box<dyn Error>> {
    let sheet = std::fs::read(from).map_err(|error| NoFile(format!("{from}: {error}")))?;
    let n = cells_in(&sheet);
    let (mut memory, mut outlets) = (Memory::new(), outlets(n as u64, want));
    let mut reach = Reach::open(&sheet, memory.lend(n), &mut outlets)?;
    println!("cells {} of {} mm", reach.cells(), reach.cell_length);
    let (steps, transports) = follow(&mut reach, strickler)?;
    println!("steps {steps} settlings {transports}");
    print_totals("left", &reach.ledger.left);
    print_totals("right", &reach.ledger.right);
    for o in reach.outlets() {
        println!("outlet at {} water {} nutrient {}", o.cell, o.water, o.mass);
    }
    let mut out = [0; sheet_size(CELLS_MOST)];
    let length = reach.write(&mut out)?;
    let written = &out[..length];
    std::fs::write(to, written).map_err(|error| NoFile(format!("{to}: {error}")))?;
    let mut again = Memory::new();
    let opened = Reach::open(written, again.lend(cells_in(written)), &mut [])?;
    if !same_record(&reach, &opened) {
        return Err("the sheet opens as another record".into());
    }
    println!("written and opened again: {length} bytes");
    Ok(())
}

/// The two files, what the outlets want, and the Strickler coefficient.
fn parsed(arguments: &[String]) -> Option<(&str, &str, Option<u64>, u64)> {
    let (from, to, more) = match arguments {
        [from, to, more @ ..] if more.len() <= 2 => (from, to, more),
        _ => return None,
    };
    let numbers: Result<Vec<u64>, _> = more.iter().map(|number| number.parse()).collect();
    let numbers = numbers.ok()?;
    let strickler = numbers.get(1).copied().unwrap_or(0);
    Some((from, to, numbers.first().copied(), strickler))
}

fn main() -> ExitCode {
    let arguments: Vec<String> = std::env::args().skip(1).collect();
    let Some((from, to, want, strickler)) = parsed(&arguments) else {
        eprintln!("usage: controller IN.sheet OUT.sheet [WANT [STRICKLER]]");
        return ExitCode::from(2);
    };
    match run(from, to, want, strickler) {
        Ok(()) => ExitCode::SUCCESS,
        Err(error) => {
            eprintln!("{error}");
            ExitCode::from(if error.is::<NoFile>() { 3 } else { 1 })
        }
    }
}
