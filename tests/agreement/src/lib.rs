//! The proved functions, each behind a safe wrapper that tests what its contract requires.
//! Nothing checks these declarations against crates/harness/src/lib.rt: keep the two side by side. Those of the six calls are
//! checked against the C header in rust/jemmyfern.

pub mod both;
pub mod calls;
pub mod sheets;

pub const DEEPEST: u64 = 4_000_000;
pub const FASTEST: i64 = 8_000;
/// A round bound of the wave speed, `waveMost`.
pub const FASTEST_WAVE: u64 = 8_000;
pub const HIGHEST: i64 = 100_000_000;

/// W, Q and S of one side of an interface.
#[repr(C)]
#[derive(Clone, Copy, Debug, PartialEq, Eq)]
pub struct Side {
    pub water: u64,
    pub momentum: u64,
    pub still: u64,
}

/// A and B of one side of an interface.
#[repr(C)]
#[derive(Clone, Copy, Debug, PartialEq, Eq)]
pub struct Rightgoing {
    pub upper: u64,
    pub lower: u64,
}

extern "C" {
    fn harness_wave_speed(h: u64) -> u64;
    fn harness_side(t: u64, x: u64, h: u64, u: i64) -> Side;
    fn harness_rightgoing(a: u64, right: u64, left: u64) -> Rightgoing;
    fn harness_velocity(h: u64, q: i64) -> i64;
    fn harness_reduced_depth(h: u64, z: i64, beside: i64) -> u64;
}

fn mesh(t: u64, x: u64) {
    assert!(t <= 1_000 && (100..=100_000).contains(&x));
}

pub fn wave_speed(h: u64) -> u64 {
    assert!(h <= DEEPEST);
    unsafe { harness_wave_speed(h) }
}

pub fn side(t: u64, x: u64, h: u64, u: i64) -> Side {
    mesh(t, x);
    assert!(h <= DEEPEST && u.abs() <= FASTEST);
    unsafe { harness_side(t, x, h, u) }
}

pub fn rightgoing(a: u64, u: i64) -> Rightgoing {
    assert!(a <= FASTEST_WAVE && u.abs() <= FASTEST);
    unsafe { harness_rightgoing(a, u.max(0) as u64, (-u).max(0) as u64) }
}

pub fn velocity(h: u64, q: i64) -> i64 {
    assert!(q.unsigned_abs() <= 8_000 * DEEPEST);
    unsafe { harness_velocity(h, q) }
}

pub fn reduced_depth(h: u64, z: i64, beside: i64) -> u64 {
    assert!(z.abs() <= HIGHEST && beside.abs() <= HIGHEST);
    unsafe { harness_reduced_depth(h, z, beside) }
}
