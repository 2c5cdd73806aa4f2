//! Settling, end setting and the edges of the two tests of a step.

use reference::set_ends;
use reference::settling::{shares, Shares};

use crate::support::{fed_end, open_end, record, settle, settled, step, WALL_END};

#[test]
fn end_setting_settles_under_the_old_pair_and_gives_the_new() {
    let old = [open_end(100), open_end(200)];
    let new = [WALL_END, fed_end(5, -7, 300)];
    let mut reach = record(500, old, &[(0, 10, 0, 40), (0, 10, 0, 0)], &[3, 5, -2]);
    let (c, outlets) = (&mut reach.columns, &mut reach.outlets);
    let answer = set_ends(c, outlets, reach.x, reach.ends, reach.book, new);
    assert_eq!((answer.refusal, answer.ends), (0, new));
    // 3 enter at 100, half of 40 moves on, 2 enter at 200
    assert_eq!(c.nutrient, [320, 420]);
    assert_eq!((&c.base, &c.carried), (&c.depth, &vec![0; 3]));
    assert_eq!(answer.book.left.nutrient_in, 300);
    assert_eq!(answer.book.right.nutrient_in, 400);
}

#[test]
fn settling_leaves_depth_discharge_and_bed() {
    let ends = [open_end(1), WALL_END];
    let mut reach = record(500, ends, &[(9, 10, -4, 40), (8, 10, 6, 0)], &[-2, -3, 0]);
    let before = reach.columns.clone();
    assert_eq!(settle(&mut reach), 0);
    let c = &reach.columns;
    assert_eq!((&c.bed, &c.depth), (&before.bed, &before.depth));
    assert_eq!(c.discharge, before.discharge);
    assert_eq!(reach.book.left.nutrient_out, 8);
    assert_eq!(c.nutrient, [32, 0]);
}

#[test]
fn shares_of_the_richest_and_deepest_cell_fit() {
    let (b, m) = (4_000_000, 2_000_000_000_000);
    let all = Shares { right: m, left: 0 };
    assert_eq!(shares(m, b, 0, b as i64), all);
    let half = Shares {
        right: m / 2,
        left: m / 2,
    };
    assert_eq!(shares(m, b, -(b as i64) / 2, b as i64 / 2), half);
    assert_eq!(shares(0, 0, 0, 0), Shares::default());
}

#[test]
fn outflow_equal_to_the_base_is_kept_and_one_more_settles() {
    // N = W(1000, 500) = 50 through both open ends
    for (carried, settles) in [(950, false), (951, true)] {
        let cell = [(0, 1_000, 500_000, 0)];
        let mut reach = record(1_000, [open_end(0); 2], &cell, &[carried; 2]);
        assert_eq!(step(&mut reach, 100).settled, settles);
        let after = if settles { 50 } else { 1_000 };
        assert_eq!(reach.columns.carried, [after; 2]);
    }
}

#[test]
fn cfl_may_be_met_exactly() {
    // 250·3,836 = 1,000·959
    let mut cell = settled(959, [WALL_END; 2], &[(0, 1_000_000, 0, 0)]);
    assert_eq!(step(&mut cell, 251).refusal, 11);
    assert_eq!(step(&mut cell, 250).refusal, 0);
    let c = &cell.columns;
    let answer = reference::greatest_step(c, &cell.outlets, cell.x, cell.ends, cell.book);
    assert_eq!(answer.t, 250);
}
