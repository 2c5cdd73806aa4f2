//! Speed as a ratio to plain Rust and to plain C, all built for release and measured in one run; of a step with outlets or with friction as a ratio to
//! the same step without. Not a test: it prints, and fails on nothing but an opponent that gives other results.
//!
//! Those of a line go over the same inputs in turns, one call of a function that is not inlined at a time; the least of several
//! rounds counts, since whatever else the machine does only adds time. A call that writes is made on a copy of its record, and the time of making
//! copies, measured in the same turns, is taken off. An argument picks the lines whose name it is part of.

mod agree;
mod fast;
mod plain;
mod reaches;
mod table;

use agreement::{both, calls};
use reaches::{alternating, drops, flow, half_dry, scattered, still, stretches, tossed, uneven};
use reference::outlet::MOST_OUTLETS;
use reference::random::{end_of_kind, record_of, sheet_of, Random, Record, COLUMN_ORDERS};
use reference::record::{FED, OPEN};
use reference::sheet::field;
use reference::{flux, Answer, GreatestAnswer, Outlet, StepAnswer};
use std::collections::BTreeMap;
use std::hint::black_box;
use table::{nothing, print_ratio, round, Table};

const INPUTS: usize = 200_000;
/// Cells of all records of a line together, whatever their length: a processor learns what it meets again soon, and caches keep it.
const CELLS: usize = 40 * 512;
/// Strickler's coefficient of an earth canal with some weeds.
const ROUGH: u64 = 35;

#[inline(never)]
fn isqrt(h: u64) -> u64 {
    fast::wave_speed(h)
}

#[inline(never)]
fn reference_side(t: u64, x: u64, h: u64, u: i64) -> flux::Side {
    flux::side(t, x, h, u)
}

fn reference_transport(r: &mut Record) -> Answer {
    reference::settle(&mut r.columns, &mut r.outlets, r.x, r.ends, r.book)
}

fn reference_greatest(r: &Record) -> GreatestAnswer {
    reference::greatest_step(&r.columns, &r.outlets, r.x, r.ends, r.book)
}

fn reference_step(r: &mut Record, t: u64) -> StepAnswer {
    reference::step(&mut r.columns, &mut r.outlets, r.x, r.ends, r.book, t, 0)
}

fn fast_step(r: &mut Record, t: u64, strickler: u64) -> StepAnswer {
    fast::step(&mut r.columns, r.x, r.ends, r.book, t, strickler)
}

/// A call about to be made; t where it is a step.
struct Planned {
    record: Record,
    t: u64,
}

/// Nanoseconds a call on a copy of each record, with those of making the copy.
fn round_on_copies<A>(list: &[Planned], call: impl Fn(&mut Record, u64) -> A) -> f64 {
    let mut copy = list[0].record.clone();
    round(list, |p| {
        copy.clone_from(&p.record);
        call(&mut copy, p.t)
    })
}

/// Nanoseconds of making the copy alone.
fn round_of_copies(list: &[Planned]) -> f64 {
    round_on_copies(list, |copy, _| {
        black_box(copy);
    })
}

/// A line of 512 cells and one of 64, and ours a cell of both. Gives ours of 512.
fn of_lengths(call: &str, kind: &str, mut line: impl FnMut(&str, usize) -> f64) -> f64 {
    let [long, short] =
        [512, 64].map(|cells| line(&format!("{call} of {cells} cells{kind}"), cells));
    let a_cell = [long / 512.0, short / 64.0];
    print_ratio("  ours a cell, of 512 and of 64", a_cell, "0.9 to 1.1");
    long
}

/// As many calls as make up `CELLS`.
fn calls_of(cells: usize, mut new: impl FnMut() -> Planned) -> Vec<Planned> {
    (0..CELLS / cells).map(|_| new()).collect()
}

/// Any record that carries water over most interfaces, either way.
fn carrying(r: &mut Random, cells: usize) -> Planned {
    Planned {
        record: record_of(r, cells, [FED, OPEN], true),
        t: 0,
    }
}

/// A flow that has carried water for one to three steps.
fn flowing(r: &mut Random, cells: usize) -> Planned {
    let mut record = flow(r, cells, 1_000);
    for _ in 0..=r.below(3) {
        let t = both::greatest(&record) / 4;
        let answer = reference_step(&mut record, t);
        assert_eq!(answer.refusal, 0);
        record.book = answer.book;
    }
    Planned { record, t: 0 }
}

/// Records for the calls that take no time step: of flows, and any.
type Records = fn(&mut Random, usize) -> Planned;
const RECORDS: [(&str, Records); 2] = [(", flow", flowing), (", any record", carrying)];

fn compare_transport(table: &Table<3>, r: &mut Random) {
    for (kind, record) in RECORDS {
        compare_transport_of(table, kind, |cells| calls_of(cells, || record(r, cells)));
    }
}

fn compare_transport_of(table: &Table<3>, kind: &str, mut list: impl FnMut(usize) -> Vec<Planned>) {
    of_lengths("transport", kind, |name, cells| {
        let list = list(cells);
        let rounds: [&dyn Fn() -> f64; 3] = [
            &|| round_on_copies(&list, |r, _| calls::transport(r)),
            &|| round_on_copies(&list, |r, _| reference_transport(r)),
            &|| round_on_copies(&list, |r, _| plain::transport(r)),
        ];
        table.line(name, rounds, &|| round_of_copies(&list), &[1.2, 1.0])
    });
}

fn compare_greatest(table: &Table<3>, r: &mut Random) {
    for (kind, record) in RECORDS {
        compare_greatest_of(table, kind, |cells| calls_of(cells, || record(r, cells)));
    }
}

/// The greatest step reads every cell and writes none, so that no copy is made.
fn compare_greatest_of(table: &Table<3>, kind: &str, mut list: impl FnMut(usize) -> Vec<Planned>) {
    of_lengths("greatest step", kind, |name, cells| {
        let list = list(cells);
        let rounds: [&dyn Fn() -> f64; 3] = [
            &|| round(&list, |p| calls::greatest_step(&p.record)),
            &|| round(&list, |p| reference_greatest(&p.record)),
            &|| round(&list, |p| plain::greatest_step(&p.record)),
        ];
        table.line(name, rounds, &nothing, &[1.2, 1.0])
    });
}

/// Accepted greatest steps with a transport first, or that keep their sums, each out of a flow of its own some steps old.
fn planned(r: &mut Random, cells: usize, slope: i64, transported: bool) -> Vec<Planned> {
    let mut list = Vec::new();
    while list.len() < CELLS / cells {
        let mut now = flow(r, cells, slope);
        let mut age = r.below(30);
        loop {
            let t = both::greatest(&now);
            let before = now.clone();
            let answer = reference_step(&mut now, t);
            assert_eq!(answer.refusal, 0);
            if age == 0 && answer.settled == transported {
                list.push(Planned { record: before, t });
                break;
            }
            now.book = answer.book;
            age = age.saturating_sub(1);
        }
    }
    list
}

/// The greatest step of each record, before any other.
fn first_steps(cells: usize, mut record: impl FnMut() -> Record) -> Vec<Planned> {
    calls_of(cells, || {
        let record = record();
        let t = both::greatest(&record);
        assert_eq!(reference_step(&mut record.clone(), t).refusal, 0);
        Planned { record, t }
    })
}

/// A step, ours against those written for speed, of 512 and of 64 cells. Gives ours of 512.
fn compare_step(
    table: &Table<3>,
    kind: &str,
    strickler: u64,
    to_c: Option<f64>,
    mut list: impl FnMut(usize) -> Vec<Planned>,
) -> f64 {
    of_lengths("step", &format!(", {kind}"), |name, cells| {
        let list = list(cells);
        let rounds: [&dyn Fn() -> f64; 3] = [
            &|| round_on_copies(&list, |r, t| calls::step(r, t, strickler)),
            &|| round_on_copies(&list, |r, t| fast_step(r, t, strickler)),
            &|| round_on_copies(&list, |r, t| plain::step(r, t, strickler)),
        ];
        table.line(name, rounds, &|| round_of_copies(&list), &[Some(1.0), to_c])
    })
}

/// Steps that keep their sums, steps with a transport first, and steps over a flat bed, without friction and with; then first steps over uneven beds, of water whose
/// direction alternates from cell to cell or is any, of water at rest, and of reaches with dry cells.
fn compare_steps(table: &Table<3>, r: &mut Random) {
    let kinds = [
        ("sloping bed", 1_000, false, 0, Some(1.0)),
        ("sloping bed, transport", 1_000, true, 0, None),
        ("flat bed", 0, false, 0, None),
        ("sloping bed, friction", 1_000, false, ROUGH, None),
        ("flat bed, friction", 0, false, ROUGH, None),
    ];
    let mut ours = BTreeMap::new();
    for (kind, slope, transported, strickler, to_c) in kinds {
        let list = |cells| planned(r, cells, slope, transported);
        ours.insert(kind, compare_step(table, kind, strickler, to_c, list));
    }
    type Reach = fn(&mut Random, usize) -> Record;
    let first: [(&str, Reach, Option<f64>); 8] = [
        ("uneven bed", uneven, Some(1.0)),
        ("steep drops", drops, None),
        ("alternating", alternating, None),
        ("directions tossed", tossed, None),
        ("still", still, Some(1.0)),
        ("85 % dry", stretches, Some(1.0)),
        ("85 % dry, scattered", scattered, None),
        ("half dry", half_dry, None),
    ];
    for (kind, record, to_c) in first {
        let list = |cells| first_steps(cells, || record(r, cells));
        ours.insert(kind, compare_step(table, kind, 0, to_c, list));
    }
    let times = [ours["85 % dry"], ours["sloping bed"]];
    print_ratio(
        "  ours of 512, 85 % dry and sloping bed",
        times,
        "at most 0.7",
    );
}

/// One step, with outlets against the same without any. What making the copy of a record without outlets takes is taken off both, so that copying the
/// list, 1,280 bytes, stays with the first. A first step makes no transport, so that both do the same beside drawing.
fn compare_drawing(table: &Table<2>, name: &str, plain: &[Planned], outlets: &[Outlet], most: f64) {
    let with_outlets = |p: &Planned| Planned {
        record: Record {
            outlets: outlets.to_vec(),
            ..p.record.clone()
        },
        ..*p
    };
    let drawn: Vec<Planned> = plain.iter().map(with_outlets).collect();
    let step = |list: &[Planned]| round_on_copies(list, |r, t| kept_step(r, t, 0));
    let rounds: [&dyn Fn() -> f64; 2] = [&|| step(&drawn), &|| step(plain)];
    table.line(name, rounds, &|| round_of_copies(plain), &[most]);
}

/// A proved step that makes no transport.
fn kept_step(record: &mut Record, t: u64, strickler: u64) {
    let answer = calls::step(record, t, strickler);
    assert_eq!((answer.refusal, answer.settled), (0, false));
}

/// A step of 512 cells with outlets, against the same without: none, 32 along the reach, 32 at one cell that fit, and that have to share.
fn compare_outlets(r: &mut Random) {
    let plain = first_steps(512, || flow(r, 512, 1_000));
    let list = |place: fn(u64) -> u64, want: u64| -> Vec<Outlet> {
        let outlets = (0..MOST_OUTLETS as u64).map(|k| Outlet::new(place(k), want));
        outlets.collect()
    };
    let lines = [
        ("no outlets", vec![], 1.05),
        ("32 outlets spread", list(|k| 16 * k, 500), 1.2),
        ("32 outlets in a cell", list(|_| 256, 500), 1.2),
        ("32 outlets sharing", list(|_| 256, 4_000_000), 1.2),
    ];
    let table = Table::of_two("a proved call", ["with outlets", "without"]);
    for (kind, outlets, most) in lines {
        let name = format!("step of 512 cells, {kind}");
        compare_drawing(&table, &name, &plain, &outlets, most);
    }
}

/// A step of 512 cells with friction, against the same without.
fn compare_friction(r: &mut Random) {
    let table = Table::of_two("a proved call", ["friction", "without"]);
    for (kind, slope) in [("sloping bed", 1_000), ("flat bed", 0)] {
        let list = first_steps(512, || flow(r, 512, slope));
        let step = |strickler| round_on_copies(&list, |r, t| kept_step(r, t, strickler));
        let name = format!("step of 512 cells, friction, {kind}");
        let rounds: [&dyn Fn() -> f64; 2] = [&|| step(ROUGH), &|| step(0)];
        table.line(&name, rounds, &|| round_of_copies(&list), &[1.2]);
    }
}

/// The whole program on the longest run that it takes: 1,000 steps on 512 cells, opened, transported and printed.
fn compare_program(table: &Table<2>, r: &mut Random) {
    let mut now = flow(r, 512, 1_000);
    now.ends = [FED, OPEN].map(|kind| end_of_kind(r, kind));
    let mut input = sheet_of(&now, COLUMN_ORDERS[0]);
    input.extend(1_000u32.to_le_bytes());
    input.extend(field(both::greatest(&now) / 2).to_le_bytes());
    let texts = (reference::program(&input), calls::program(&input));
    assert_eq!(texts.0.as_bytes(), texts.1);
    let rounds: [&dyn Fn() -> f64; 2] = [&|| round(&[()], |()| calls::program(&input)), &|| {
        round(&[()], |()| reference::program(&input))
    }];
    table.line("program, 1,000 steps on 512 cells", rounds, &nothing, &[1.2]);
}

/// Two functions of one side of an interface.
fn compare_sides(table: &Table<2>, r: &mut Random) {
    let depths: Vec<u64> = (0..INPUTS).map(|_| r.below(4_000_001)).collect();
    let rounds: [&dyn Fn() -> f64; 2] =
        [&|| round(&depths, |&h| agreement::wave_speed(h)), &|| {
            round(&depths, |&h| isqrt(h))
        }];
    table.line("wave speed, against u64::isqrt", rounds, &nothing, &[2.0]);
    let flow = |&h: &u64| (h, r.between(-2_000, 2_000));
    let flows: Vec<(u64, i64)> = depths.iter().map(flow).collect();
    let rounds: [&dyn Fn() -> f64; 2] = [
        &|| round(&flows, |&(h, u)| agreement::side(100, 1_000, h, u)),
        &|| round(&flows, |&(h, u)| reference_side(100, 1_000, h, u)),
    ];
    table.line("W, Q and S of one side of an interface", rounds, &nothing, &[1.2]);
}

fn main() {
    let mut r = Random::new(1);
    agree::opponents_agree(&mut r);
    let table = Table::of_two("a call", ["proved", "plain Rust"]);
    compare_sides(&table, &mut r);
    compare_program(&table, &mut r);
    let table = Table::of_three();
    compare_transport(&table, &mut r);
    compare_greatest(&table, &mut r);
    compare_steps(&table, &mut r);
    compare_outlets(&mut r);
    compare_friction(&mut r);
}
