//! "Errors a good hydraulician makes", and rules that are as easily missed.

use reference::flux::{momentum, still, water};
use reference::random::Random;

use crate::support::{fed_end, open_end, record, settle, settled, step, WALL_END};

#[test]
fn dry_cell_keeps_no_grain() {
    // b 2, m 1, R = L = 1: singly floored shares are 0 and 0
    let ends = [open_end(0); 2];
    let mut cell = record(1_000, ends, &[(0, 2, 0, 1)], &[-1, 1]);
    assert_eq!(cell.columns.depth, [0]);
    assert_eq!(settle(&mut cell), 0);
    assert_eq!(cell.columns.nutrient, [0]);
    assert_eq!(cell.book.left.nutrient_out, 1);
    assert_eq!(cell.book.right.nutrient_out, 0);
}

#[test]
fn outflow_over_the_running_depth_but_not_the_base_is_kept() {
    let cells = [(0, 1_000, 200_000, 5), (0, 1_000, 1_600_000, 5)];
    let mut reach = record(1_000, [WALL_END, open_end(0)], &cells, &[0, 600, 0]);
    // N(1) = W(400, 500) = 20: the sum 620 passes the depth 400 and not the base 1,000
    assert_eq!(reach.columns.depth[0], 400);
    let answer = step(&mut reach, 100);
    assert_eq!((answer.refusal, answer.settled), (0, false));
    assert_eq!(reach.columns.carried, [0, 620, 160]);
    assert_eq!(reach.columns.base, [1_000, 1_000]);
}

#[test]
fn outflow_over_the_base_but_not_the_running_depth_settles() {
    let cell = [(0, 100, 505_000, 1_000)];
    let mut reach = record(1_000, [open_end(3), open_end(0)], &cell, &[1_000, 90]);
    // N(1) = W(1010, 500) = 50: the sum 140 passes the base 100 and not the depth 1,010
    let answer = step(&mut reach, 100);
    assert_eq!((answer.refusal, answer.settled), (0, true));
    assert_eq!(reach.columns.carried, [50, 50]);
    assert_eq!(reach.columns.base, [1_010]);
    // settled with the old c: 1,000 enter at 3, the right share of 1,000 grains is 90/100
    assert_eq!(reach.columns.nutrient, [1_000 + 3_000 - 900]);
    assert_eq!(reach.book.left.nutrient_in, 3_000);
    assert_eq!(reach.book.right.nutrient_out, 900);
}

#[test]
fn still_water_over_a_rough_bed_stays_still() {
    let mut r = Random::new(12);
    for _ in 0..20 {
        let level = 1_000_000;
        // dry banks and islands stand above the level
        let mut cells = [(0, 0, 0, 0); 12];
        for cell in &mut cells {
            cell.0 = r.between(-2_000_000, 1_300_000);
            cell.1 = (level - cell.0).max(0) as u64;
        }
        let last = fed_end(cells[11].1.max(1), 0, 0);
        let right = if cells[11].1 > 0 { last } else { open_end(0) };
        let mut lake = settled(2_000, [WALL_END, right], &cells);
        let before = lake.columns.clone();
        for _ in 0..10 {
            assert_eq!(step(&mut lake, 300).refusal, 0);
            assert_eq!(lake.columns, before);
        }
    }
}

#[test]
fn still_push_is_not_half_g_h_squared() {
    // 9.80665·h²·t / (2,000·X) for a metre of water
    let textbook: u64 = 980_665 * 10_000_000 * 100 / (2_000 * 1_000);
    assert_eq!(textbook, 490_332_500);
    assert_eq!(still(100, 1_000, 1_000_000), 490_496_400);
}

#[test]
fn each_amount_is_floored_not_their_difference() {
    // 3.05 rightwards and 2.99475 leftwards: 3 − 2 = 1, where floor(0.05525) = 0
    let mut reach = settled(1_000, [WALL_END; 2], &[(0, 1_000, 0, 0), (0, 990, 0, 0)]);
    assert_eq!(step(&mut reach, 100).refusal, 0);
    assert_eq!(reach.columns.carried, [0, 1, 0]);
    assert_eq!(reach.columns.depth, [999, 991]);
}

#[test]
fn wall_pushes_as_the_mirrored_cell() {
    let (h, u) = (800_000, 1_234);
    let mut cell = settled(1_000, [WALL_END; 2], &[(0, h, u * h as i64, 0)]);
    assert_eq!(step(&mut cell, 100).refusal, 0);
    let push = |u: i64| 2 * momentum(100, 1_000, h, u) as i64;
    assert_eq!(cell.columns.depth, [h]);
    assert_eq!(cell.columns.discharge, [u * h as i64 + push(-u) - push(u)]);
}

#[test]
fn cfl_looks_at_the_unreduced_depth() {
    // a step above the water reduces the depth to 0; a(4,000,000)·131 > 1,000·1,000
    let cells = [(0, 4_000_000, 0, 0), (5_000_000, 0, 0, 0)];
    let mut reach = settled(1_000, [WALL_END; 2], &cells);
    assert_eq!(step(&mut reach, 131).refusal, 11);
    assert_eq!(step(&mut reach, 130).refusal, 0);
}

#[test]
fn discharge_is_moved_into_the_range_of_the_new_depth() {
    // the fastest particles of the fed end enter a dry cell alone
    let fed = |way: i64| fed_end(4_000_000, way * 8_000 * 4_000_000, 0);
    let h = water(100, 10_000, 4_000_000, 8_000);
    let most = 8_000 * h as i64;
    assert!(momentum(100, 10_000, 4_000_000, 8_000) as i64 > most);
    for (ends, q) in [([fed(1), WALL_END], most), ([WALL_END, fed(-1)], -most)] {
        let mut cell = settled(10_000, ends, &[(0, 0, 0, 0)]);
        assert_eq!(step(&mut cell, 100).refusal, 0);
        assert_eq!((cell.columns.depth[0], cell.columns.discharge[0]), (h, q));
    }
}

#[test]
fn book_takes_end_water_by_the_sign_of_n_and_nutrient_at_settling() {
    let ends = [
        fed_end(600_000, 300_000_000, 20),
        fed_end(900_000, -450_000_000, 30),
    ];
    let mut cell = settled(1_000, ends, &[(0, 200_000, 0, 0)]);
    let rest = water(100, 1_000, 200_000, 0);
    let left = water(100, 1_000, 600_000, 500) - rest;
    let right = water(100, 1_000, 900_000, 500) - rest;
    assert_eq!(step(&mut cell, 100).refusal, 0);
    assert_eq!(cell.columns.carried, [left as i64, -(right as i64)]);
    assert_eq!(
        (cell.book.left.water_in, cell.book.left.water_out),
        (left, 0)
    );
    assert_eq!(
        (cell.book.right.water_in, cell.book.right.water_out),
        (right, 0)
    );
    assert_eq!(cell.book.left.nutrient_in, 0);
    assert_eq!(settle(&mut cell), 0);
    assert_eq!(cell.book.left.nutrient_in, 20 * left);
    assert_eq!(cell.book.right.nutrient_in, 30 * right);
    assert_eq!(cell.columns.nutrient, [20 * left + 30 * right]);
}
