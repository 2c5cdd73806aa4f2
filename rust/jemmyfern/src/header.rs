//! The C header against the crate's constants and the declarations in `raw`: every limit, every refusal, the layout of every type and every call,
//! through both.

#[path = "../tests/cc/mod.rs"]
mod cc;

use crate::raw::{self, Answer, Boundaries, Greatest, Opened, Stepped};
use crate::{cells_in, sheet_size, Boundary, Ledger, Outlet, Refusal, Totals};
use std::fmt::Write;
use std::mem::{align_of, offset_of, size_of};
use std::process::Command;

macro_rules! layout {
    ($text:ident, $name:literal, $type:ty $(, $field:ident)*) => {
        writeln!($text, "{} {} {}", $name, size_of::<$type>(), align_of::<$type>()).unwrap();
        $(writeln!($text, "{} {} {}", $name, stringify!($field), offset_of!($type, $field)).unwrap();)*
    };
}

macro_rules! limits {
    ($($name:ident),*) => {
        [$(format!("{} {}\n", stringify!($name), crate::$name)),*].concat()
    };
}

fn limits() -> String {
    limits!(
        CELLS_MOST,
        DEPTH_MOST,
        VELOCITY_MOST,
        BED_MOST,
        CONCENTRATION_MOST,
        CELL_LENGTH_LEAST,
        CELL_LENGTH_MOST,
        TIME_STEP_MOST,
        STRICKLER_LEAST,
        STRICKLER_MOST,
        OUTLETS_MOST,
        WANT_MOST,
        TOTAL_MOST
    )
}

/// The refusals by number, named as C names them.
fn refusals() -> String {
    let mut text = String::new();
    for refusal in Refusal::ALL {
        text.push_str("refusal");
        for letter in format!("{refusal:?}").chars() {
            if letter.is_uppercase() {
                text.push(if text.ends_with("refusal") { ' ' } else { '_' });
            }
            text.push(letter.to_ascii_uppercase());
        }
        writeln!(text, " {}", refusal.number()).unwrap();
    }
    text
}

fn layouts() -> String {
    let mut text = String::new();
    layout!(
        text,
        "boundary",
        Boundary,
        kind,
        reserved,
        depth,
        concentration,
        discharge
    );
    layout!(text, "boundaries", Boundaries);
    layout!(text, "totals", Totals, water_in, water_out, mass_in, mass_out);
    layout!(text, "ledger", Ledger, left, right);
    layout!(text, "outlet", Outlet, cell, want, drawn, water, mass);
    layout!(text, "answer", Answer, refusal, boundaries, ledger);
    layout!(
        text,
        "opened",
        Opened,
        refusal,
        cell_length,
        boundaries,
        ledger
    );
    layout!(
        text,
        "stepped",
        Stepped,
        refusal,
        boundaries,
        ledger,
        transported
    );
    layout!(text, "greatest", Greatest, refusal, boundaries, ledger, time, place);
    text
}

/// What the C program keeps in its statics.
struct Record {
    bed: Vec<i64>,
    depth: Vec<u64>,
    discharge: Vec<i64>,
    mass: Vec<u64>,
    base: Vec<u64>,
    carried: Vec<i64>,
    outlets: Vec<Outlet>,
    out: Vec<u8>,
    text: String,
}

/// The columns as pointers and lengths, all of them to write: a `*mut` serves where a `*const` is asked for.
macro_rules! call {
    ($function:ident, $r:expr $(, $more:expr)*) => {
        unsafe {
            raw::$function(
                $r.bed.as_mut_ptr(), $r.bed.len(), $r.depth.as_mut_ptr(), $r.depth.len(),
                $r.discharge.as_mut_ptr(), $r.discharge.len(), $r.mass.as_mut_ptr(), $r.mass.len(),
                $r.base.as_mut_ptr(), $r.base.len(), $r.carried.as_mut_ptr(), $r.carried.len(),
                $r.outlets.as_mut_ptr(), $r.outlets.len()
                $(, $more)*
            )
        }
    };
}

impl Record {
    fn new(n: usize, outlets: &[Outlet]) -> Record {
        Record {
            bed: vec![0; n],
            depth: vec![0; n],
            discharge: vec![0; n],
            mass: vec![0; n],
            base: vec![0; n],
            carried: vec![0; n + 1],
            outlets: outlets.to_vec(),
            out: vec![0; sheet_size(n) + 10],
            text: String::new(),
        }
    }

    fn print(
        &mut self,
        call: &str,
        refusal: u32,
        boundaries: &[Boundary; 2],
        k: &Ledger,
        more: [u64; 2],
    ) {
        let t = &mut self.text;
        write!(t, "{call} {refusal} {} {}", more[0], more[1]).unwrap();
        for boundary in boundaries {
            let Boundary {
                kind,
                reserved,
                depth,
                concentration,
                discharge,
            } = boundary;
            write!(t, " {kind} {reserved} {depth} {concentration} {discharge}").unwrap();
        }
        for side in [&k.left, &k.right] {
            let Totals {
                water_in,
                water_out,
                mass_in,
                mass_out,
            } = side;
            write!(t, " {water_in} {water_out} {mass_in} {mass_out}").unwrap();
        }
        for i in 0..self.bed.len() {
            write!(
                t,
                " {} {} {}",
                self.bed[i], self.depth[i], self.discharge[i]
            )
            .unwrap();
            write!(t, " {} {} {}", self.mass[i], self.base[i], self.carried[i]).unwrap();
        }
        write!(t, " {}", self.carried[self.bed.len()]).unwrap();
        for o in &self.outlets {
            write!(
                t,
                " {} {} {} {} {}",
                o.cell, o.want, o.drawn, o.water, o.mass
            )
            .unwrap();
        }
        for byte in &self.out {
            write!(t, " {byte}").unwrap();
        }
        t.push('\n');
    }

    fn step(&mut self, x: u64, held: Boundaries, ledger: Ledger, step: (u64, u64)) -> Ledger {
        let (t, strickler) = step;
        let s = call!(jemmyfern_step, self, x, held, ledger, t, strickler);
        self.print(
            "step",
            s.refusal,
            &s.boundaries,
            &s.ledger,
            [s.transported.into(), 0],
        );
        s.ledger
    }

    fn write(&mut self, x: u64, held: Boundaries, ledger: Ledger, length: usize) {
        let out = self.out.as_mut_ptr();
        let a = call!(jemmyfern_write, self, x, held, ledger, out, length);
        self.print("write", a.refusal, &a.boundaries, &a.ledger, [0, 0]);
    }
}

/// The calls of header.c, in its order, with these outlets.
fn calls(sheet: &[u8], outlets: &[Outlet]) -> String {
    let n = cells_in(sheet);
    let mut r = Record::new(n, outlets);
    let o = unsafe {
        raw::jemmyfern_open(
            sheet.as_ptr(),
            sheet.len(),
            r.bed.as_mut_ptr(),
            n,
            r.depth.as_mut_ptr(),
            n,
            r.discharge.as_mut_ptr(),
            n,
            r.mass.as_mut_ptr(),
            n,
            r.base.as_mut_ptr(),
            n,
            r.carried.as_mut_ptr(),
            n + 1,
            r.outlets.as_mut_ptr(),
            r.outlets.len(),
        )
    };
    r.print(
        "open",
        o.refusal,
        &o.boundaries,
        &o.ledger,
        [o.cell_length, 0],
    );
    let (x, mut held, mut ledger) = (
        o.cell_length,
        Boundaries {
            boundaries: o.boundaries,
        },
        o.ledger,
    );
    let g = call!(jemmyfern_greatest_step, r, x, held, ledger);
    r.print(
        "greatest",
        g.refusal,
        &g.boundaries,
        &g.ledger,
        [g.time, g.place as u64],
    );
    // time and Strickler coefficient; where both are wrong, the time comes first, and CFL last
    for step in [
        (g.time, 0),
        (0, 9),
        (g.time / 2, 30),
        (g.time + 1, 10),
        (g.time + 1, 91),
        (1_001, 0),
    ] {
        if let Some(first) = r.outlets.first_mut() {
            first.want += 1_000;
        }
        ledger = r.step(x, held, ledger, step);
    }
    r.write(x, held, ledger, sheet_size(n));
    let turned = Boundaries {
        boundaries: [held.boundaries[1], held.boundaries[0]],
    };
    let a = call!(jemmyfern_set_boundaries, r, x, held, ledger, turned);
    r.print("set", a.refusal, &a.boundaries, &a.ledger, [0, 0]);
    held.boundaries = a.boundaries;
    ledger = r.step(x, held, a.ledger, (1, 90));
    let a = call!(jemmyfern_transport, r, x, held, ledger);
    r.print("transport", a.refusal, &a.boundaries, &a.ledger, [0, 0]);
    r.write(x, held, a.ledger, sheet_size(n) - 1);
    r.write(x, held, a.ledger, sheet_size(n) + 10);
    r.text
}

/// The lists that header.c lends: none, three outlets, and three of which the last is not in the reach.
fn lists(n: usize) -> [Vec<Outlet>; 3] {
    let lent = |last: u64| {
        [(0, 700, 1), (n as u64 / 2, 4_000_000, 4), (last, 3_000, 7)].map(|(cell, want, drawn)| {
            let (water, mass) = (drawn + 1, drawn + 2);
            Outlet {
                drawn,
                water,
                mass,
                ..Outlet::new(cell, want)
            }
        })
    };
    [vec![], lent(0).to_vec(), lent(n as u64).to_vec()]
}

/// Sheets that open, some of them with a fed and an open boundary, one with cells so short that CFL sets the greatest step, and sheets that do not.
fn sheets() -> Vec<Vec<u8>> {
    let example = std::fs::read(cc::kept("examples/reach.sheet")).expect("the example's sheet");
    let mut list = vec![example.clone(), example[..79].to_vec(), Vec::new()];
    // edition, number of cells, cell length, an offset, a boundary's kind, a depth
    for (at, byte) in [
        (0, 2),
        (8, 0),
        (8, 41),
        (12, 99),
        (13, 1),
        (16, 79),
        (32, 3),
        (56, 0),
        (56, 2),
        (80 + 4 * 40 + 3, 255),
    ] {
        let mut damaged = example.clone();
        damaged[at] = byte;
        list.push(damaged);
    }
    list
}

/// What the steps answered.
fn steps(text: &str) -> Vec<&str> {
    let steps = text.lines().filter_map(|line| line.strip_prefix("step "));
    steps.filter_map(|line| line.split(' ').next()).collect()
}

#[test]
fn the_header_and_the_declarations_agree() {
    let folder = cc::folder("header");
    let program = cc::compiled("rust/jemmyfern/src/header.c", "c11", &folder);
    let (mut opened, mut drawn, mut not_in_reach, mut in_order) = (0, 0, 0, 0);
    for sheet in sheets() {
        let file = folder.join("a.sheet");
        std::fs::write(&file, &sheet).unwrap();
        let output = Command::new(&program).arg(&file).output().unwrap();
        assert!(output.status.success());
        let text = String::from_utf8(output.stdout).unwrap();
        let [none, three, wrong] = lists(cells_in(&sheet)).map(|list| calls(&sheet, &list));
        let fixed = limits() + &refusals() + &layouts();
        assert_eq!(text, fixed + &none + &three + &wrong);
        opened += usize::from(none.starts_with("open 0 "));
        in_order += usize::from(steps(&none).starts_with(&["0", "10", "0", "11", "17", "10"]));
        drawn += usize::from(three.starts_with("open 0 ") && three != none);
        not_in_reach += usize::from(wrong.starts_with("open 16 "));
    }
    assert!(opened >= 2, "{opened}");
    assert!(in_order >= 1, "{in_order}");
    assert_eq!((drawn, not_in_reach), (opened, opened));
    std::fs::remove_dir_all(&folder).unwrap();
}
