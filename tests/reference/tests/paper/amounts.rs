//! Crossing amounts against their formulas in wide numbers.

use reference::flux::{
    interface, momentum, reduced_depth, side, speed, still, water, wave_speed, Water,
};
use reference::random::Random;

/// Searched upwards from 0: the first a that is enough.
pub fn searched_wave_speed(h: u64) -> u64 {
    let mut a = 0;
    while 1_000_000 * a * a < 14_709_975 * h {
        a += 1;
    }
    a
}

#[test]
fn wave_speed_is_the_upward_search_at_random_depths() {
    let mut r = Random::new(1);
    for _ in 0..1_000 {
        let h = r.below(4_000_001);
        assert_eq!(wave_speed(h), searched_wave_speed(h), "h {h}");
    }
}

#[test]
fn wave_speed_is_the_upward_search_at_every_depth() {
    // the speed only rises, so the search goes on from the last depth's
    let mut a = 0;
    for h in 0..=4_000_000 {
        while 1_000_000 * a * a < 14_709_975 * h {
            a += 1;
        }
        assert_eq!(wave_speed(h), a, "h {h}");
    }
}

fn wide_amounts(t: u64, x: u64, h: u64, u: i64) -> (i128, i128) {
    if h == 0 {
        return (0, 0);
    }
    let a = i128::from(searched_wave_speed(h));
    let (t, x, h, u) = (t as i128, x as i128, h as i128, u as i128);
    let (fore, rear) = ((u + a).max(0), (u - a).max(0));
    let w = h * t * (fore.pow(2) - rear.pow(2)) / (4_000 * a * x);
    let k = (fore.pow(3) - rear.pow(3)) / (6 * a);
    (w, h * t * k / (1_000 * x))
}

#[test]
fn amounts_match_wide_arithmetic_up_to_the_limits() {
    let mut r = Random::new(2);
    for _ in 0..1_000 {
        let any_h = r.below(4_000_001);
        let h = r.pick(&[0, 1, 2, 4_000_000, any_h]);
        let any_u = r.between(-8_000, 8_000);
        let u = r.pick(&[0, 8_000, -8_000, any_u]);
        let t = r.pick(&[1, 17, 1_000]);
        let x = r.pick(&[100, 999, 100_000]);
        let (w, q) = wide_amounts(t, x, h, u);
        let both = side(t, x, h, u);
        assert_eq!((both.water as i128, both.momentum as i128), (w, q));
        assert_eq!(both.still as i128, 2 * wide_amounts(t, x, h, 0).1);
        assert_eq!(both.water, water(t, x, h, u));
        assert_eq!(both.momentum, momentum(t, x, h, u));
        assert_eq!(both.still, still(t, x, h));
    }
}

/// "no depth may go below zero under it": the two outgoing W of a cell, each of its depth or less,
/// fit the depth in the greatest step of CFL.
#[test]
fn both_outgoing_amounts_fit_the_depth() {
    let mut r = Random::new(27);
    for _ in 0..20_000 {
        let most = r.pick(&[1, 20, 2_000, 4_000_000]);
        let h = 1 + r.below(most);
        let (any_left, any_right) = (r.below(h + 1), r.below(h + 1));
        let (left, right) = (r.pick(&[h, any_left]), r.pick(&[h, any_right]));
        let fastest = r.pick(&[5, 300, 8_000]);
        let u = r.between(-fastest, fastest);
        let x = r.pick(&[100, 999, 100_000]);
        let t = (1_000 * x / (u.unsigned_abs() + searched_wave_speed(h))).min(1_000);
        let out = water(t, x, left, -u) + water(t, x, right, u);
        assert!(
            out <= h,
            "h {h}, {left}, {right}, u {u}, t {t}, X {x}: {out}"
        );
    }
}

#[test]
fn speed_is_cut_towards_zero() {
    assert_eq!(speed(3, 8), 2);
    assert_eq!(speed(3, -8), -2);
    assert_eq!(speed(0, 0), 0);
}

#[test]
fn higher_bed_reduces_the_depth() {
    assert_eq!(reduced_depth(100, 10, 50), 60);
    assert_eq!(reduced_depth(100, 10, 110), 0);
    assert_eq!(reduced_depth(100, 10, 2_000), 0);
    assert_eq!(reduced_depth(100, 10, -2_000), 100);
}

#[test]
fn interface_uses_reduced_depth_and_the_speed_of_the_whole_depth() {
    let l = Water::new(0, 900_000, 900_000 * 700);
    let r = Water::new(250_000, 400_000, 400_000 * -300);
    let found = interface(50, 1_000, l, r);
    let (left, right) = (side(50, 1_000, 650_000, 700), side(50, 1_000, 400_000, 300));
    assert_eq!(found.water, left.water as i64 - right.water as i64);
    assert_eq!(found.push, (left.momentum + right.momentum) as i64);
    assert_eq!(found.still_left, still(50, 1_000, 650_000) as i64);
    assert_eq!(found.still_right, still(50, 1_000, 400_000) as i64);
}
