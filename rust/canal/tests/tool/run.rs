//! Runs and their balance.

use crate::tools::*;
use canal::balance::{Balance, Held};
use canal::record::Record;
use canal::run::{fills_most, run};
use jemmyfern::{Boundary, Refusal};

const TWO_CELLS: &str = include_str!("../../examples/two_cells.txt");

fn two_cells() -> Vec<u8> {
    fed(&["make", "-", "-"], TWO_CELLS.as_bytes()).bytes
}

/// Water comes in at the left, flows over a sill, and leaves at the right.
fn flowing() -> Record {
    let mut record = Record::new(60);
    record.boundaries = [
        Boundary::fed(900_000, 300_000_000, 2_500),
        Boundary::open(40),
    ];
    for i in 0..60 {
        record.bed[i] = if (25..30).contains(&i) { 300_000 } else { 0 };
        record.depth[i] = if i < 40 {
            600_000 - record.bed[i] as u64
        } else {
            0
        };
        record.mass[i] = record.depth[i] * 100;
    }
    record.base = record.depth.clone();
    record
}

#[test]
fn the_figures_of_the_paper() {
    let after = file("run_two.sheet");
    let answer = fed(
        &[
            "run",
            "-",
            "--for",
            "100ms",
            "--step",
            "100",
            "--out",
            text(&after),
        ],
        &two_cells(),
    );
    assert_eq!((answer.status, &*answer.errors), (0, ""));
    assert!(
        answer
            .text()
            .starts_with("0.1 s of canal time: 1 step, 1 transport "),
        "{}",
        answer.text()
    );
    let shown = call(&["show", text(&after)]);
    let rows: Vec<&str> = shown.text().lines().skip(5).collect();
    assert_eq!(
        rows,
        ["0 907132 242795920 2721396", "0 192868 242795920 278604"]
    );
}

#[test]
fn the_report_accounts_for_all() {
    let answer = fed(&["run", "-", "--for", "0.1"], &two_cells());
    let lines: Vec<String> = answer
        .text()
        .lines()
        .map(|l| l.split_whitespace().collect::<Vec<_>>().join(" "))
        .collect();
    assert_eq!(lines[1], "water: µm m³/m mass: grains g/m");
    assert_eq!(lines[2], "held before 1100000 1.1 3000000 0.003");
    assert_eq!(lines[3], "in at the left 0 0 0 0");
    assert_eq!(lines[7], "held after 1100000 1.1 3000000 0.003");
    assert_eq!(
        lines[8],
        "The balance closes: held before + in - out = held after."
    );
    assert!(
        lines[9].contains("one cell of 1000 mm: 1 µm is 0.000001 m³ per metre of width"),
        "{}",
        lines[9]
    );
    assert!(
        lines[10].contains("0.000000001 g per metre of width"),
        "{}",
        lines[10]
    );
    assert_eq!(
        lines[11],
        "A sheet holds no ledger: these totals start at 0 with each run."
    );
}

/// The numbers of a line of the report: water, then mass.
fn sums(report: &str, name: &str) -> (i128, i128) {
    let line = report
        .lines()
        .find(|l| l.starts_with(name))
        .expect("the line");
    let numbers: Vec<&str> = line[name.len()..].split_whitespace().collect();
    let whole = |i: usize| numbers[i].parse().expect("a number");
    (whole(0), whole(2))
}

#[test]
fn the_balance_of_a_flow() {
    let answer = fed(&["run", "-", "--for", "2min"], &flowing().draft_sheet());
    assert_eq!(answer.status, 0, "{}", answer.errors);
    let sum = |name| sums(answer.text(), name);
    let (before, after) = (sum("held before"), sum("held after"));
    let comes = [sum("in at the left"), sum("in at the right")];
    let goes = [sum("out at the left"), sum("out at the right")];
    assert_eq!(
        before.0 + comes[0].0 + comes[1].0 - goes[0].0 - goes[1].0,
        after.0
    );
    assert_eq!(
        before.1 + comes[0].1 + comes[1].1 - goes[0].1 - goes[1].1,
        after.1
    );
    assert!(comes[0].0 > 0 && goes[1].0 > 0 && comes[0].1 > 0 && goes[1].1 > 0);
    assert!(answer.text().contains("The balance closes"));
}

#[test]
fn greatest_steps_end_exactly_on_time() {
    let mut record = flowing();
    let before = Held::by(&record);
    let mut times = vec![0];
    let made = run(&mut record, 12_345, None, 0, |made| times.push(made.time)).expect("it runs");
    assert_eq!((made.time, made.steps), (12_345, times.len() as u64 - 1));
    assert!((1..=made.steps + 1).contains(&made.transports));
    assert!(record.carried.iter().all(|&c| c == 0));
    assert!(Balance::of(before, &record).closes());
    // each but the last is the greatest that the record allowed
    let mut again = flowing();
    for pair in times.windows(2) {
        let greatest = again.with(|reach| reach.greatest_step()).expect("one").time;
        let t = pair[1] - pair[0];
        assert!(t == greatest || (t < greatest && pair[1] == 12_345));
        again.with(|reach| reach.step(t)).expect("a step");
    }
    again.with(|reach| reach.transport()).expect("a transport");
    assert_eq!(again, record);
}

#[test]
fn a_balance_that_is_off_by_one_does_not_close() {
    let mut record = flowing();
    let before = Held::by(&record);
    run(&mut record, 5_000, Some(50), 0, |_| ()).expect("it runs");
    let balance = Balance::of(before, &record);
    assert!(balance.closes());
    let mut water = balance;
    water.after.water += 1;
    let mut mass = balance;
    mass.ledger.right.mass_out += 1;
    assert!(!water.closes() && !mass.closes());
    assert!(water.to_string().contains("DOES NOT CLOSE"));
}

#[test]
fn no_time_is_a_transport_alone() {
    let sheet = flowing().draft_sheet();
    let answer = fed(&["run", "-", "--for", "0", "--out", "-"], &sheet);
    assert_eq!(answer.status, 0);
    assert_eq!(answer.bytes, sheet);
    assert!(
        answer.errors.contains("0 steps, 1 transport "),
        "{}",
        answer.errors
    );
}

#[test]
fn quiet_is_quiet() {
    let answer = fed(&["run", "--quiet", "--for=1s", "-"], &two_cells());
    assert_eq!((answer.status, answer.text(), &*answer.errors), (0, "", ""));
}

#[test]
fn a_step_too_long_is_refused_with_its_place_and_nothing_is_written() {
    let out = file("run_refused.sheet");
    let answer = fed(
        &[
            "run",
            "-",
            "--for",
            "1s",
            "--step",
            "261",
            "--out",
            text(&out),
        ],
        &two_cells(),
    );
    assert_eq!(answer.status, 1);
    assert!(answer.bytes.is_empty());
    assert!(!out.exists());
    let words = "at 0 s of canal time, after 0 steps: a step of 261 ms, where 260 ms is the greatest, set by cell 0";
    assert!(answer.errors.contains("refused 11: "), "{}", answer.errors);
    assert!(answer.errors.contains(words), "{}", answer.errors);
    assert!(answer.errors.ends_with("\n  nothing was written\n"));
}

#[test]
fn a_reach_that_overflows_stops_where_it_does() {
    let mut record = Record::new(1);
    record.boundaries[0] = Boundary::fed(4_000_000, 32_000_000_000, 0);
    let answer = fed(&["run", "-", "--for", "1h"], &record.draft_sheet());
    assert_eq!(answer.status, 1);
    assert!(answer.errors.contains("refused 12: "), "{}", answer.errors);
    let stopped = run(&mut record, 3_600_000, None, 0, |_| ()).expect_err("it stops");
    assert_eq!(stopped.refusal, Refusal::Depth);
    let (step, depth) = (stopped.step, record.depth[0]);
    let words = format!(
        ": a step of {step} ms would overfill cell 0, now {depth} µm deep\n  nothing was written\n"
    );
    assert!(answer.errors.ends_with(&words), "{}", answer.errors);
}

/// Fast water against the wall at the right, behind a cell that is deeper and drains.
#[test]
fn the_cell_that_overflows_is_not_the_deepest_before() {
    let mut record = Record::new(4);
    record.depth = vec![0, 3_900_000, 3_000_000, 3_000_000];
    record.discharge = vec![0, 0, 24_000_000_000, 24_000_000_000];
    record.base = record.depth.clone();
    let stopped = run(&mut record, 1_000, None, 0, |_| ()).expect_err("it stops");
    assert_eq!((stopped.refusal, stopped.made.steps), (Refusal::Depth, 0));
    assert_eq!(fills_most(&record, stopped.step), Some(3));
}

#[test]
fn a_full_reach_that_is_fed_names_no_cell() {
    let mut record = Record::new(3);
    record.depth.fill(4_000_000);
    record.boundaries[1] = Boundary::fed(4_000_000, -32_000_000_000, 0);
    let answer = fed(&["run", "-", "--for", "1h"], &record.draft_sheet());
    assert_eq!(answer.status, 1);
    let words =
        "at 0 s of canal time, after 0 steps: even a step of 1 ms would overfill a cell\n  nothing was written\n";
    assert!(answer.errors.ends_with(words), "{}", answer.errors);
}

#[test]
fn a_refused_sheet_does_not_run() {
    let answer = fed(&["run", "-", "--for", "1s"], &[1; 90]);
    assert_eq!(answer.status, 1);
    assert!(
        answer
            .errors
            .contains("standard input: refused 1: edition 16843009 is not 1"),
        "{}",
        answer.errors
    );
}
