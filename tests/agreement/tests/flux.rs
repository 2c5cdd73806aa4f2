//! The lowest layer against the second implementation.

use agreement::{reduced_depth, side, velocity, wave_speed, DEEPEST, FASTEST, HIGHEST};
use reference::flux;
use reference::random::Random;

const DEPTHS: [u64; 14] = [
    0, 1, 2, 3, 67, 68, 999, 1_000, 71_283, 100_000, 1_000_000, 1_140_535, 3_999_999, 4_000_000,
];
const VELOCITIES: [i64; 13] = [
    -8_000, -7_999, -7_672, -7_671, -3_836, -1, 0, 1, 3_836, 7_671, 7_672, 7_999, 8_000,
];
const TIMES: [u64; 6] = [0, 1, 2, 100, 999, 1_000];
const LENGTHS: [u64; 6] = [100, 101, 1_000, 12_345, 99_999, 100_000];
const DEEPEST_SIGNED: i64 = DEEPEST as i64;

fn same_side(t: u64, x: u64, h: u64, u: i64) {
    let (ours, theirs) = (side(t, x, h, u), flux::side(t, x, h, u));
    assert_eq!(
        (ours.water, ours.momentum, ours.still),
        (theirs.water, theirs.momentum, theirs.still),
        "t {t} X {x} h {h} u {u}"
    );
}

/// A number in low..=high, at an end of the range one time in eight.
fn pick(r: &mut Random, low: i64, high: i64) -> i64 {
    match r.below(16) {
        0 => low,
        1 => high,
        _ => low + r.below((high - low) as u64 + 1) as i64,
    }
}

fn depth(r: &mut Random) -> u64 {
    let most = [10, 2_000, 80_000, DEEPEST_SIGNED][r.below(4) as usize];
    pick(r, 0, most) as u64
}

#[test]
fn wave_speed_at_every_depth() {
    for h in 0..=DEEPEST {
        assert_eq!(wave_speed(h), flux::wave_speed(h), "h {h}");
    }
}

#[test]
fn sides_at_the_corners() {
    for t in TIMES {
        for x in LENGTHS {
            for h in DEPTHS {
                for u in VELOCITIES {
                    same_side(t, x, h, u);
                }
            }
        }
    }
}

#[test]
fn sides_at_two_million_random_inputs() {
    let mut r = Random::new(2);
    for _ in 0..2_000_000 {
        let h = depth(&mut r);
        same_side(
            pick(&mut r, 1, 1_000) as u64,
            pick(&mut r, 100, 100_000) as u64,
            h,
            pick(&mut r, -FASTEST, FASTEST),
        );
    }
}

/// Where u passes ±a the speeds of the box change sign: every u about it, at many depths.
#[test]
fn sides_about_the_critical_velocity() {
    let mut r = Random::new(3);
    for _ in 0..20_000 {
        let h = depth(&mut r);
        let a = flux::wave_speed(h) as i64;
        for d in -3..=3 {
            for u in [a + d, -a + d] {
                if u.abs() <= FASTEST {
                    same_side(1_000, 100, h, u);
                }
            }
        }
    }
}

#[test]
fn velocities_at_a_million_random_inputs() {
    let mut r = Random::new(7);
    for _ in 0..1_000_000 {
        let h = depth(&mut r);
        let most = 8_000 * h as i64;
        let q = pick(&mut r, -most, most);
        assert_eq!(velocity(h, q), flux::speed(h, q), "h {h} q {q}");
    }
}

#[test]
fn reduced_depths_at_a_million_random_inputs() {
    let mut r = Random::new(11);
    for _ in 0..1_000_000 {
        let h = depth(&mut r);
        let z = pick(&mut r, -HIGHEST, HIGHEST);
        let beside = (z + pick(&mut r, -5_000_000, 5_000_000)).clamp(-HIGHEST, HIGHEST);
        assert_eq!(
            reduced_depth(h, z, beside),
            flux::reduced_depth(h, z, beside),
            "h {h} z {z} beside {beside}"
        );
    }
}
