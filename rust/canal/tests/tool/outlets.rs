//! Outlets: their list, what they draw in a run, and their part in the balance.

use crate::tools::*;
use canal::balance::{Balance, Held};
use canal::explain::explain_outlets;
use canal::outlets::read;
use canal::record::Record;
use canal::run::{fills_most, run};
use jemmyfern::{Boundary, Outlet, Refusal};
use std::path::{Path, PathBuf};

const TWO_CELLS: &str = include_str!("../../examples/two_cells.txt");

fn two_cells() -> Vec<u8> {
    fed(&["make", "-", "-"], TWO_CELLS.as_bytes()).bytes
}

/// A list in a file.
fn list(name: &str, text: &str) -> PathBuf {
    let list = file(name);
    std::fs::write(&list, text).expect("written");
    list
}

/// `canal run` of this sheet with a list, and more arguments.
fn run_with(sheet: &[u8], list: &Path, more: &[&str]) -> Answer {
    let mut arguments = vec!["run", "-", "--outlets", text(list)];
    arguments.extend(more);
    fed(&arguments, sheet)
}

/// The lines of a report with single spaces.
fn lines(report: &str) -> Vec<String> {
    let words = |line: &str| line.split_whitespace().collect::<Vec<_>>().join(" ");
    report.lines().map(words).collect()
}

#[test]
fn a_list_is_read() {
    let text = "\u{feff}# cell want\n\n13 300\n  26\t1_000 # two\n26 0\n";
    let list = read(text).expect("a list");
    let outlets = [(13, 300), (26, 1_000), (26, 0)].map(|(cell, want)| Outlet::new(cell, want));
    assert_eq!(
        (list.outlets, list.lines),
        (outlets.to_vec(), vec![3, 4, 5])
    );
    assert_eq!(read("# nothing\n"), Ok(Default::default()));
}

#[test]
fn the_list_of_the_usage_is_one() {
    let help = call(&["help"]);
    let (_, list) = help.text().split_once("at most 32:\n").expect("there");
    let (list, _) = list.split_once("\nExit status").expect("there");
    let outlets = [Outlet::new(0, 300), Outlet::new(1, 4_000_000)];
    assert_eq!(read(list).expect("a list").outlets, outlets);
}

#[test]
fn a_line_that_is_no_outlet_is_named() {
    let cases = [
        ("1 2\n3\n", 2, "1 value, but an outlet has 2: cell, want"),
        ("1 2 3", 1, "3 values, but an outlet has 2: cell, want"),
        ("\n\nx 2", 3, "cell: 'x' is not a whole number"),
        ("1 2.5", 1, "want: '2.5' is not a whole number"),
        ("-1 2", 1, "cell: -1 does not fit its field"),
        (
            "1 18446744073709551616",
            1,
            "want: 18446744073709551616 does not fit its field",
        ),
    ];
    for (text, line, words) in cases {
        let error = read(text).expect_err(text);
        assert_eq!(error.line, line, "{text:?}");
        assert!(error.words.starts_with(words), "{text:?}: {}", error.words);
    }
}

/// By hand from the paper: W is 95,900 in cell 0 and 3,032 in cell 1, towards the wall too, so the cells can give 808,200 and 93,936. The two outlets
/// of cell 1 want 2,900,000 of it: 64,783 and 29,152 by the floors, and the unit left goes to the first of them. Of the mass of cell 0 the right has
/// floor(3 * 92,868), and the outlet floor(3 * 93,168) less that.
#[test]
fn outlets_of_the_two_cell_run() {
    let (after, list) = (
        file("outlets_two.sheet"),
        list("outlets_two.txt", "0 300\n1 2000000\n1 900000\n"),
    );
    let out = ["--for", "100ms", "--step", "100", "--out", text(&after)];
    let answer = run_with(&two_cells(), &list, &out);
    assert_eq!((answer.status, &*answer.errors), (0, ""));
    let lines = lines(answer.text());
    assert_eq!(
        lines[0],
        "0.1 s of canal time: 1 step, 1 transport (the last one at the end)"
    );
    assert_eq!(lines[2], "held before 1100000 1.1 3000000 0.003");
    assert_eq!(lines[7], "drawn by outlets 94236 0.094236 900 0.0000009");
    assert_eq!(lines[8], "held after 1005764 1.005764 2999100 0.0029991");
    assert_eq!(
        lines[9],
        "The balance closes: held before + in - out - drawn = held after."
    );
    let drawn = [
        "",
        "drawn by outlets water: µm m³/m mass: grains g/m",
        "cell 0, wanting 300 µm a step 300 0.0003 900 0.0000009",
        "cell 1, wanting 2000000 µm a step 64784 0.064784 0 0",
        "cell 1, wanting 900000 µm a step 29152 0.029152 0 0",
        "A want is of a step: the same outlet draws more in shorter steps.",
    ];
    assert_eq!(lines[13..], drawn);
    let shown = call(&["show", text(&after)]);
    let rows: Vec<&str> = shown.text().lines().skip(5).collect();
    assert_eq!(
        rows,
        ["0 906832 242795920 2720496", "0 98932 242795920 278604"]
    );
}

/// Outlets that want nothing, and a list without outlets: the water runs as without any.
#[test]
fn closed_outlets_change_nothing() {
    let run = |name: &str, text: &str| {
        let list = list(name, text);
        run_with(
            &two_cells(),
            &list,
            &["--for", "3s", "--quiet", "--out", "-"],
        )
    };
    let plain = fed(
        &["run", "-", "--for", "3s", "--quiet", "--out", "-"],
        &two_cells(),
    );
    for (name, text) in [
        ("outlets_none.txt", "# none\n"),
        ("outlets_shut.txt", "0 0\n1 0\n"),
    ] {
        let answer = run(name, text);
        assert_eq!((answer.status, &*answer.errors), (0, ""));
        assert!(answer.bytes == plain.bytes, "{name}");
    }
    let list = list("outlets_none_told.txt", "");
    let told = run_with(&two_cells(), &list, &["--for", "1s"]);
    assert_eq!(
        told.bytes,
        fed(&["run", "-", "--for", "1s"], &two_cells()).bytes
    );
}

fn kept(name: &str) -> PathBuf {
    PathBuf::from(env!("CARGO_MANIFEST_DIR"))
        .join("../..")
        .join(name)
}

/// Eight minutes of the example with its list, which draws 600 micrometres in each of 480 steps.
#[test]
fn the_example_with_its_outlets() {
    let (sheet, list) = (kept("examples/reach.sheet"), kept("examples/outlets.txt"));
    let answer = call(&[
        "run",
        text(&sheet),
        "--for",
        "8min",
        "--outlets",
        text(&list),
    ]);
    assert_eq!((answer.status, &*answer.errors), (0, ""));
    let lines = lines(answer.text());
    assert!(
        lines[0].starts_with("480 s of canal time: 480 steps, "),
        "{}",
        lines[0]
    );
    let start = |words: &str| lines.iter().filter(|l| l.starts_with(words)).count();
    assert_eq!(start("drawn by outlets 288000 1.44 "), 1, "{lines:?}");
    assert_eq!(start("The balance closes: "), 1);
    assert_eq!(start("cell 13, wanting 300 µm a step 144000 0.72 "), 1);
    assert_eq!(start("cell 26, wanting 200 µm a step 96000 0.48 "), 1);
    assert_eq!(start("cell 26, wanting 100 µm a step 48000 0.24 "), 1);
}

/// A fed reach with four outlets, one of which wants more than its cell can give.
fn drawn_from() -> Record {
    let mut record = Record::new(30);
    record.boundaries = [
        Boundary::fed(900_000, 300_000_000, 2_500),
        Boundary::open(40),
    ];
    record.depth.fill(500_000);
    record.base.fill(500_000);
    record.mass.fill(500_000 * 90);
    record.outlets = [(3, 2_000), (29, 1), (11, 4_000_000), (11, 500)]
        .map(|(cell, want)| Outlet::new(cell, want))
        .to_vec();
    record
}

#[test]
fn the_balance_counts_what_was_drawn() {
    let mut record = drawn_from();
    let before = Held::by(&record);
    let made = run(&mut record, 60_000, None, 0, |_| ()).expect("it runs");
    assert!(record.outlets.iter().all(|o| o.drawn == 0 && o.mass > 0));
    assert_eq!(record.outlets[0].water, 2_000 * made.steps);
    assert!(record.outlets[2].water > 500 * made.steps);
    let balance = Balance::of(before, &record);
    assert!(balance.closes());
    let drawn = balance.drawn.expect("outlets");
    assert_eq!(drawn, Held::drawn(&record.outlets));
    for other in [
        None,
        Some(Held {
            water: drawn.water + 1,
            ..drawn
        }),
        Some(Held {
            mass: drawn.mass - 1,
            ..drawn
        }),
    ] {
        let off = Balance {
            drawn: other,
            ..balance
        };
        assert!(!off.closes());
    }
}

/// The faults that a list has for three cells, as the tool says them.
fn faults(text: &str) -> Vec<String> {
    let list = read(text).expect("a list");
    let explanation = explain_outlets(&list, 3);
    let mut record = Record::new(3);
    record.depth.fill(1_000);
    let opened = Record::open_with(&record.draft_sheet(), list.outlets);
    assert_eq!(
        opened.err(),
        explanation.as_ref().map(|e| e.ground),
        "{text}"
    );
    explanation.map_or(vec![], |e| e.faults.into_iter().map(|f| f.words).collect())
}

/// What is said of a list is what the library refuses, and the library's ground is 16.
#[test]
fn lists_that_are_refused() {
    assert!(faults("").is_empty());
    assert!(faults("0 0\n2 4000000\n").is_empty());
    assert!(faults(&"1 7\n".repeat(32)).is_empty());
    assert_eq!(
        faults(&"1 7\n".repeat(33)),
        ["33 outlets, and 32 is the most"]
    );
    assert_eq!(
        faults("# cell want\n3 1\n0 4000001 # much\n"),
        [
            "line 2: cell 3 is not in the reach of 3 cells, counted from 0",
            "line 3: want 4000001 is above 4000000"
        ]
    );
    let wide = "line 1: cell 4294967296 is not in the reach of 3 cells, counted from 0";
    assert_eq!(faults("4294967296 0"), [wide]);
}

#[test]
fn a_refused_list_is_told_with_its_line() {
    let list = list("outlets_refused.txt", "0 1\n2 5\n");
    let answer = run_with(&two_cells(), &list, &["--for", "1s"]);
    assert_eq!((answer.status, answer.text()), (1, ""));
    let words = format!(
        "canal: {}: refused 16: line 2: cell 2 is not in the reach of 2 cells, counted from 0\n  ground 16: {}\n",
        text(&list),
        Refusal::Outlets.words()
    );
    assert_eq!(answer.errors, words);
    // the sheet's own ground comes first
    let answer = run_with(&[1; 90], &list, &["--for", "1s"]);
    assert!(
        answer.errors.contains("standard input: refused 1: "),
        "{}",
        answer.errors
    );
}

#[test]
fn lists_that_cannot_be_read() {
    let gone = file("there_is_no_such_list.txt");
    let answer = run_with(&two_cells(), &gone, &["--for", "1s"]);
    assert_eq!(answer.status, 3);
    assert!(answer.errors.contains(text(&gone)), "{}", answer.errors);
    let wrong = list("outlets_wrong.txt", "0 1\nzero 1\n");
    let answer = run_with(&two_cells(), &wrong, &["--for", "1s"]);
    assert_eq!(answer.status, 1);
    let words = format!(
        "{}: line 2: cell: 'zero' is not a whole number",
        text(&wrong)
    );
    assert!(answer.errors.contains(&words), "{}", answer.errors);
    let bytes = file("outlets_bytes.txt");
    std::fs::write(&bytes, [0xFF, 0xFE]).expect("written");
    let answer = run_with(&two_cells(), &bytes, &["--for", "1s"]);
    assert_eq!(answer.status, 1);
    assert!(
        answer.errors.contains("this is not text"),
        "{}",
        answer.errors
    );
}

#[test]
fn a_list_from_standard_input() {
    let sheet = file("outlets_sheet.sheet");
    std::fs::write(&sheet, two_cells()).expect("written");
    let arguments = ["run", text(&sheet), "--for", "100ms", "--outlets", "-"];
    let answer = fed(&arguments, b"0 300\n");
    assert_eq!((answer.status, &*answer.errors), (0, ""));
    assert!(answer.text().contains("cell 0, wanting 300 µm a step"));
}

#[test]
fn a_list_is_not_written_over() {
    let list = list("outlets_both.txt", "0 300\n");
    let answer = run_with(&two_cells(), &list, &["--for", "1s", "--out", text(&list)]);
    assert_eq!(answer.status, 2);
    assert!(
        answer
            .errors
            .contains("--outlets and --out are the same file"),
        "{}",
        answer.errors
    );
    assert_eq!(std::fs::read(&list).expect("there"), b"0 300\n");
}

/// Fast water against both walls, a little faster at the right. What an outlet draws does not grow with the time: 50,000 leave the last cell the deepest,
/// 2,000,000 do not.
#[test]
fn the_cell_that_overflows_with_outlets() {
    let mut record = Record::new(5);
    record.depth = vec![3_000_000, 3_000_000, 0, 3_000_000, 3_000_000];
    record.discharge = [-23, -23, 0, 24, 24].map(|q| q * 1_000_000_000).to_vec();
    record.base = record.depth.clone();
    for (want, cell) in [(0, 4), (50_000, 4), (2_000_000, 0)] {
        let mut drawn = record.clone();
        drawn.outlets = vec![Outlet::new(4, want)];
        let stopped = run(&mut drawn, 1_000, None, 0, |_| ()).expect_err("it stops");
        assert_eq!((stopped.refusal, stopped.made.steps), (Refusal::Depth, 0));
        assert_eq!(fills_most(&drawn, stopped.step), Some(cell), "{want}");
    }
}
