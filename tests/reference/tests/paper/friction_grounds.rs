//! Ground 17: "another value is 17, checked after 10".

use reference::friction::allowed;
use reference::random::Record;
use reference::record::MOST_TOTAL;
use reference::Outlet;

use crate::support::{fed_end, rough_step, settled, WALL_END};

/// All that is neither 0 nor 10..90, as far as values go.
fn others() -> Vec<u64> {
    let far = [91, 92, 100, 1 << 32, (1 << 32) + 30, 1 << 63, u64::MAX];
    (1..10).chain(far).collect()
}

/// A full cell, a wall at its right; as much flows in at 2,000 mm/s.
fn full() -> Record {
    let ends = [fed_end(4_000_000, 8_000_000_000, 0), WALL_END];
    settled(1_000, ends, &[(0, 4_000_000, 0, 0)])
}

/// As `full`, with an outlet for what comes in.
fn drawing() -> Record {
    let mut cell = full();
    cell.outlets = vec![Outlet::new(0, 452_144)];
    cell
}

/// The refusal; a refused step must change nothing.
fn refusal(mut record: Record, t: u64, strickler: u64) -> u32 {
    let before = record.clone();
    let answer = rough_step(&mut record, t, strickler);
    assert_eq!(
        (answer.ends, record == before),
        (before.ends, answer.refusal != 0)
    );
    assert!(answer.refusal == 0 || !answer.settled);
    answer.refusal
}

#[test]
fn allowed_are_0_and_10_to_90() {
    assert!(allowed(0));
    assert!((10..=90).all(allowed));
    assert!(!others().into_iter().any(allowed));
}

#[test]
fn allowed_ones_step() {
    for strickler in (10..=90).chain([0]) {
        assert_eq!(refusal(drawing(), 100, strickler), 0);
    }
}

#[test]
fn another_value_is_17() {
    for strickler in others() {
        assert_eq!(refusal(drawing(), 100, strickler), 17, "{strickler}");
    }
}

#[test]
fn ground_17_comes_after_10() {
    for strickler in others() {
        for t in [0, 1_001, 1 << 32, (1 << 32) + 100, u64::MAX] {
            assert_eq!(refusal(drawing(), t, strickler), 10);
        }
    }
}

#[test]
fn ground_17_comes_before_11_to_13() {
    let mut flooded = drawing();
    flooded.book.left.water_in = MOST_TOTAL;
    // 9,671·104 > 1,000·1,000
    let broken = [(11, drawing(), 104), (12, full(), 100), (13, flooded, 100)];
    for (ground, record, t) in broken {
        assert_eq!(refusal(record.clone(), t, 30), ground);
        assert_eq!(refusal(record.clone(), t, 0), ground);
        for strickler in others() {
            assert_eq!(refusal(record.clone(), t, strickler), 17);
        }
    }
}

#[test]
fn ground_17_comes_after_4_to_9_and_16() {
    let breaks: [(u32, fn(&mut Record)); 7] = [
        (4, |r| r.columns.base.clear()),
        (5, |r| r.x = 99),
        (6, |r| r.ends[0].zero = 1),
        (7, |r| r.columns.bed[0] = 100_000_001),
        (16, |r| r.outlets[0].cell = 1),
        (8, |r| r.columns.carried[0] = 1),
        (9, |r| r.book.left.water_in = MOST_TOTAL + 1),
    ];
    for (ground, damage) in breaks {
        for strickler in others() {
            let mut record = drawing();
            damage(&mut record);
            assert_eq!(refusal(record, 100, strickler), ground);
        }
    }
}
