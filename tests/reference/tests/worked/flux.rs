//! Depth 199,900, X 1,030, t 70.

use reference::flux::{momentum, speed, still, water, wave_speed};

#[test]
fn speed_is_cut_towards_zero() {
    assert_eq!(speed(2, -3), -1);
}

#[test]
fn crossing_amounts() {
    assert_eq!(wave_speed(199_900), 1_715);
    let amounts = [2_000, -1_000, -2_000].map(|u| {
        let water = water(70, 1_030, 199_900, u);
        (water, momentum(70, 1_030, 199_900, u))
    });
    assert_eq!(amounts, [(27_170, 67_661_018), (1_012, 482_581), (0, 0)]);
    assert_eq!(still(70, 1_030, 199_900), 13_319_270);
}

/// Where h·t = 1,000·X, Q is K: A = 3,715 and B = 285, then A = 715 and B = 0.
#[test]
fn second_moments() {
    let moments = [2_000, -1_000].map(|u| momentum(10, 1_999, 199_900, u));
    assert_eq!(moments, [4_980_408, 35_522]);
}
