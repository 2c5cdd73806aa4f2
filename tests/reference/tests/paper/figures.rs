//! "Figures to meet", with the wave speed of point 3.

use reference::flux::{momentum, water, wave_speed};
use reference::program;
use reference::random::{sheet, sheet_of, Random, COLUMN_ORDERS};
use reference::settling::{shares, Shares};
use reference::{open, Columns};

use crate::support::{settled, step, two_cells, WALL_END};

#[test]
fn wave_speeds() {
    let found = [0, 1, 100_000, 1_000_000, 4_000_000].map(wave_speed);
    assert_eq!(found, [0, 4, 1_213, 3_836, 7_671]);
}

#[test]
fn crossing_amounts() {
    assert_eq!(water(100, 1_000, 1_000_000, 0), 95_900);
    assert_eq!(momentum(100, 1_000, 1_000_000, 0), 245_248_200);
    assert_eq!(water(100, 1_000, 100_000, 0), 3_032);
}

#[test]
fn shares_of_one_grain() {
    assert_eq!(shares(1, 2, -1, 1), Shares { right: 0, left: 1 });
}

#[test]
fn metre_of_water_at_rest_steps_260_and_not_261() {
    let mut record = settled(1_000, [WALL_END; 2], &[(0, 1_000_000, 0, 0)]);
    assert_eq!(step(&mut record, 260).refusal, 0);
    assert_eq!(step(&mut record, 261).refusal, 11);
}

#[test]
fn cells_512_open_513_and_0_are_2() {
    let mut r = Random::new(3);
    let whole = sheet(&mut r, 512);
    assert_eq!(
        open(&whole, &mut Columns::of_cells(512), &mut []).refusal,
        0
    );
    let over = sheet(&mut r, 513);
    assert_eq!(open(&over, &mut Columns::of_cells(513), &mut []).refusal, 2);
    let mut none = over[..80].to_vec();
    none[4..12].copy_from_slice(&[80, 0, 0, 0, 0, 0, 0, 0]);
    assert_eq!(open(&none, &mut Columns::of_cells(0), &mut []).refusal, 2);
}

#[test]
fn two_cell_run() {
    let mut input = sheet_of(&two_cells(), COLUMN_ORDERS[0]);
    input.extend(1u32.to_le_bytes());
    input.extend(100u32.to_le_bytes());
    let text = "cells 2\n\
                0 907132 242795920 2721396\n\
                1 192868 242795920 278604\n\
                book 0 0 0 0 0 0 0 0\n";
    assert_eq!(program(&input), text);
}
