//! A bottom that rises by 30,000; X 1,030, t 70.

use reference::flux::{interface, reduced_depth, Water};
use reference::random::Record;
use reference::Book;

use crate::{columns, step, WALL};

fn over_step(left: (u64, i64), right: (u64, i64)) -> Record {
    let cells = [
        (0, left.0, left.1, 0, left.0),
        (30_000, right.0, right.1, 0, right.0),
    ];
    Record {
        columns: columns(&cells, &[0; 3]),
        outlets: vec![],
        x: 1_030,
        ends: [WALL; 2],
        book: Book::default(),
    }
}

#[test]
fn amounts_over_the_step() {
    assert_eq!(reduced_depth(100_000, 0, 30_000), 70_000);
    assert_eq!(reduced_depth(20_000, 30_000, 0), 20_000);
    assert_eq!(reduced_depth(100, 0, 300), 0);
    let before = Water::new(0, 100_000, 50_000_000);
    let beyond = Water::new(30_000, 20_000, -2_000_000);
    assert_eq!((before.speed, beyond.speed), (500, -100));
    let crossing = interface(70, 1_030, before, beyond);
    assert_eq!((crossing.water, crossing.push), (2_431, 2_827_216));
}

#[test]
fn cells_beside_the_step() {
    let mut r = over_step((100_000, 50_000_000), (20_000, -2_000_000));
    assert_eq!(step(&mut r, 70).refusal, 0);
    assert_eq!(r.columns.depth, [97_569, 22_431]);
    assert_eq!(r.columns.discharge, [46_150_208, 754_678]);
}

#[test]
fn still_water_stays_at_rest() {
    let mut r = over_step((100_000, 0), (70_000, 0));
    assert_eq!(step(&mut r, 70).refusal, 0);
    assert_eq!(r.columns.depth, [100_000, 70_000]);
    assert_eq!(r.columns.discharge, [0, 0]);
}
