//! Friction of the bed, by numbers worked out by hand.
//!
//! A cell between open ends flows on: what crosses at the left crosses at the right, so its depth
//! changes by its outlets alone and its discharge by friction and the cut alone.

use reference::friction::{slowed, ROOTS};
use reference::random::Record;
use reference::Outlet;

use crate::support::{fed_end, open_end, rough_step, settled, WALL_END};

/// One cell that flows on, and an outlet.
fn flowing(x: u64, depth: u64, discharge: i64, want: u64) -> Record {
    let mut cell = settled(x, [open_end(0); 2], &[(0, depth, discharge, 0)]);
    cell.outlets = vec![Outlet::new(0, want)];
    cell
}

/// Depth and discharge of the first cell after a step.
fn after(mut record: Record, t: u64, strickler: u64) -> (u64, i64) {
    assert_eq!(rough_step(&mut record, t, strickler).refusal, 0);
    (record.columns.depth[0], record.columns.discharge[0])
}

#[test]
fn list_of_roots() {
    // 10³ = 1,000; 25³ = 15,625 ≤ 16,000; 4,641³ ≤ 10^11; 29,472³ ≤ 1,000·400⁴ = 2.56·10^13
    let found = [0, 1, 2, 10, 100, 399, 400].map(|k| ROOTS[k]);
    assert_eq!(found, [0, 10, 25, 215, 4_641, 29_374, 29_472]);
    assert_eq!(ROOTS.len(), 401);
}

#[test]
fn each_root_is_the_greatest() {
    for (k, &r) in ROOTS.iter().enumerate() {
        let most = 1_000 * (k as u128).pow(4);
        let r = u128::from(r);
        assert!(r.pow(3) <= most && most < (r + 1).pow(3), "{k}");
    }
}

#[test]
fn a_metre_of_water_is_slowed() {
    // k 100, D = 900·4,641 = 4,176,900, E = floor(9,103.6); 2·10^9·4,176,900/4,186,003
    let slow = (1_000_000, 1_995_650_743);
    assert_eq!(
        after(flowing(1_000, 1_000_000, 2_000_000_000, 0), 100, 30),
        slow
    );
    let free = (1_000_000, 2_000_000_000);
    assert_eq!(
        after(flowing(1_000, 1_000_000, 2_000_000_000, 0), 100, 0),
        free
    );
}

#[test]
fn discharge_below_0_is_cut_towards_0() {
    let slow = (1_000_000, -1_995_650_743);
    assert_eq!(
        after(flowing(1_000, 1_000_000, -2_000_000_000, 0), 100, 30),
        slow
    );
    // D 1,000, and 22 mm/s make E = floor(1.001) = 1: a thousandth part is lost
    let left = [1, -1, 1_001, -1_001, 1_002, -1_002].map(|q| slowed(q, 10_000, 22, 1, 10));
    assert_eq!(left, [0, 0, 1_000, -1_000, 1_000, -1_000]);
}

#[test]
fn e_is_floored() {
    // 45,518·21 = 955,878 is no unit yet, 45,518·22 = 1,001,396 is one
    let left = [0, 21, -21, 22, -22].map(|u| slowed(5_005, 10_000, u, 1, 10));
    assert_eq!(left, [5_005, 5_005, 5_005, 5_000, 5_000]);
}

#[test]
fn nothing_flows_under_a_centimetre() {
    // at 9,999 k is 0 and D too; at 10,000 r is 10, D = 10·F², E = floor(3,536.7)
    for way in [1, -1] {
        let found = |h, strickler| after(flowing(1_000, h, way * 7_777_777, 0), 100, strickler);
        for strickler in [10, 30, 90] {
            assert_eq!(found(9_999, strickler), (9_999, 0));
        }
        assert_eq!(found(10_000, 10), (10_000, way * 1_714_677));
        assert_eq!(found(10_000, 90), (10_000, way * 7_452_445));
        // without friction it keeps all of it
        assert_eq!(found(9_999, 0), (9_999, way * 7_777_777));
        assert_eq!(found(10_000, 0), (10_000, way * 7_777_777));
    }
}

#[test]
fn d_of_0_counts_even_where_e_is_0() {
    // water at rest under a centimetre, pushed by its neighbour: E is 0 too
    assert_eq!(slowed(7, 9_999, 0, 1, 10), 0);
    assert_eq!(slowed(-7, 0, 0, 1_000, 90), 0);
    assert_eq!(slowed(7, 9_999, 0, 1, 0), 7);
    let cells = [(0, 9_000, 0, 0), (0, 3_000, 0, 0)];
    let reach = || settled(1_000, [WALL_END; 2], &cells);
    assert!(after(reach(), 100, 0).1 > 0);
    assert_eq!(after(reach(), 100, 10).1, 0);
}

#[test]
fn water_at_rest_is_pushed_as_without_friction() {
    // E is 0 by the old speed, whatever the push
    for strickler in [0, 10, 90] {
        let cells = [(0, 1_000_000, 0, 0), (0, 100_000, 0, 0)];
        let mut reach = settled(1_000, [WALL_END; 2], &cells);
        assert_eq!(rough_step(&mut reach, 100, strickler).refusal, 0);
        assert_eq!(reach.columns.depth, [907_132, 192_868]);
        assert_eq!(reach.columns.discharge, [242_795_920; 2]);
    }
}

#[test]
fn speed_is_the_old_and_depth_the_new() {
    // 25,631 come in, so k is 12 and not 10: r 274, D = 900·274. The old speed is −250, so
    // E = floor(1,137.9), though 34,949,830 of 125,631 is 278 to the right: 34,771,460 with that,
    // 34,745,665 with the old depth
    let ends = [fed_end(300_000, 240_000_000, 0), WALL_END];
    let cell = || settled(1_000, ends, &[(0, 100_000, -25_000_000, 0)]);
    assert_eq!(after(cell(), 100, 0), (125_631, 34_949_830));
    assert_eq!(after(cell(), 100, 30), (125_631, 34_789_426));
}

#[test]
fn depth_is_that_after_drawing() {
    // of 100,000 are left 40,000: k 4, r 63, D = 900·63, E = floor(455.18); k 10 would leave
    // 9,976,540
    let found = |want| after(flowing(100_000, 100_000, 10_000_000, want), 100, 30);
    assert_eq!(found(60_000), (40_000, 9_920_391));
    assert_eq!(found(90_000), (10_000, 9_518_773));
    assert_eq!(found(90_001), (9_999, 0));
}

#[test]
fn friction_comes_before_the_cut() {
    // 8,000 mm/s, t 1: E = floor(364.1)
    for way in [1, -1] {
        let found = |want, strickler| {
            let cell = flowing(100_000, 100_000, way * 800_000_000, want);
            after(cell, 1, strickler)
        };
        // k 2, r 25, D 22,500: 787,263,820 are still too many, and 8,000·20,000 stay; cut first
        // they would be slowed to 157,452,764
        assert_eq!(found(80_000, 30), (20_000, way * 160_000_000));
        // k 9, r 187, D 18,700: friction leaves less than 8,000·99,000; cut first it would leave
        // 776,877,885
        assert_eq!(found(1_000, 10), (99_000, way * 784_725_136));
        assert_eq!(found(1_000, 0), (99_000, way * 792_000_000));
    }
}

/// Water rushes in at 8,000 mm/s behind water as fast, before a step of the bed; 1,920,000 come in.
fn rushing(want: u64) -> Record {
    let ends = [fed_end(4_000_000, 32_000_000_000, 0), WALL_END];
    let cells = [(0, 4_000_000, 32_000_000_000, 0), (5_000_000, 0, 0, 0)];
    let mut reach = settled(100, ends, &cells);
    reach.outlets = vec![Outlet::new(0, want)];
    reach
}

#[test]
fn product_may_pass_64_bits() {
    // 47,360,000,240·D with D = 8,100·29,472 = 238,723,200 is over 1.1·10^19; E = floor(2,184.8)
    let left = slowed(47_360_000_240, 4_000_000, 8_000, 6, 90);
    assert_eq!(left, 47_359_566_962);
    // the cut is 8,000·4,000,000
    assert_eq!(
        after(rushing(1_920_000), 6, 90),
        (4_000_000, 32_000_000_000)
    );
    // E = floor(364,144.0), the most that there can be
    let most = [i64::MAX, i64::MIN].map(|q| slowed(q, 4_000_000, -8_000, 1_000, 90));
    assert_eq!(
        most,
        [9_209_324_302_119_856_314, -9_209_324_302_119_856_315]
    );
}

#[test]
fn new_depth_past_the_list_is_12() {
    // 5,920,000 without an outlet, 4,000,001 with one that wants a unit too little
    for (want, refusal) in [(0, 12), (1_919_999, 12), (1_920_000, 0)] {
        for strickler in [0, 10, 30, 90] {
            let mut reach = rushing(want);
            let before = reach.clone();
            assert_eq!(rough_step(&mut reach, 6, strickler).refusal, refusal);
            assert_eq!(reach == before, refusal == 12);
        }
    }
    // from both ends: 6,919,480
    let fed = |way: i64| fed_end(4_000_000, way * 32_000_000_000, 0);
    let mut cell = settled(100, [fed(1), fed(-1)], &[(0, 4_000_000, 0, 0)]);
    let before = cell.clone();
    assert_eq!(rough_step(&mut cell, 6, 30).refusal, 12);
    assert_eq!(cell, before);
}
