//! The program's own limits and text.

use reference::program;
use reference::random::{sheet, sheet_of, Random, COLUMN_ORDERS};

use crate::support::{fed_end, open_end, settle, settled, step, two_cells};

fn input(mut sheet: Vec<u8>, count: u32, t: u32) -> Vec<u8> {
    sheet.extend(count.to_le_bytes());
    sheet.extend(t.to_le_bytes());
    sheet
}

fn two_cell_sheet() -> Vec<u8> {
    sheet_of(&two_cells(), COLUMN_ORDERS[0])
}

#[test]
fn byte_limits_come_first() {
    assert_eq!(program(&[]), "refused 1\n");
    assert_eq!(program(&[1; 7]), "refused 1\n");
    assert_eq!(program(&[1; 8]), "refused 1\n");
    // over the limit even an edition that is not 1 is 2
    assert_eq!(program(&[0; 12_377]), "refused 2\n");
    assert_eq!(program(&[0; 12_376]), "refused 1\n");
}

#[test]
fn longest_input_runs() {
    let longest = input(sheet(&mut Random::new(4), 512), 0, 0);
    assert_eq!(longest.len(), 12_376);
    assert!(program(&longest).starts_with("cells 512\n"));
}

#[test]
fn count_over_1000_is_10_after_opening() {
    assert_eq!(
        program(&input(two_cell_sheet(), 1_001, 100)),
        "refused 10\n"
    );
    assert_eq!(
        program(&input(two_cell_sheet(), u32::MAX, 0)),
        "refused 10\n"
    );
    let mut bad = two_cell_sheet();
    bad[12..16].fill(0);
    assert_eq!(program(&input(bad, 1_001, 100)), "refused 5\n");
    assert!(program(&input(two_cell_sheet(), 1_000, 100)).starts_with("cells 2\n"));
}

#[test]
fn count_0_does_not_look_at_t() {
    let text = "cells 2\n0 1000000 0 3000000\n1 100000 0 0\nbook 0 0 0 0 0 0 0 0\n";
    for t in [0, 1_001, u32::MAX] {
        assert_eq!(program(&input(two_cell_sheet(), 0, t)), text);
    }
    assert_eq!(program(&input(two_cell_sheet(), 1, 0)), "refused 10\n");
    assert_eq!(program(&input(two_cell_sheet(), 1, 1_001)), "refused 10\n");
}

#[test]
fn refused_step_prints_only_the_refusal() {
    assert_eq!(program(&input(two_cell_sheet(), 3, 261)), "refused 11\n");
}

#[test]
fn sheet_with_bytes_after_it_is_2() {
    let mut long = two_cell_sheet();
    long.push(0);
    assert_eq!(program(&input(long, 1, 100)), "refused 2\n");
}

#[test]
fn text_is_the_record_after_steps_and_a_settling() {
    let ends = [fed_end(500_000, 300_000_000, 40), open_end(7)];
    let cells = [(0, 300_000, 0, 900), (-20, 200_000, -5_000, 17)];
    let mut record = settled(2_000, ends, &cells);
    let printed = program(&input(sheet_of(&record, COLUMN_ORDERS[23]), 9, 150));
    for _ in 0..9 {
        assert_eq!(step(&mut record, 150).refusal, 0);
    }
    assert_eq!(settle(&mut record), 0);
    let c = &record.columns;
    let (l, r) = (record.book.left, record.book.right);
    let line = |i: usize| format!("{i} {} {} {}", c.depth[i], c.discharge[i], c.nutrient[i]);
    let text = format!(
        "cells 2\n{}\n{}\nbook {} {} {} {} {} {} {} {}\n",
        line(0),
        line(1),
        l.water_in,
        l.water_out,
        l.nutrient_in,
        l.nutrient_out,
        r.water_in,
        r.water_out,
        r.nutrient_in,
        r.nutrient_out
    );
    assert_eq!(printed, text);
    assert!(l.water_in > 0 && l.nutrient_in > 0 && r.water_out > 0);
}
