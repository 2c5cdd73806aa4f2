//! The paper's limits, to say them in words. The library checks them itself.

pub const CELLS_MOST: u32 = jemmyfern::CELLS_MOST as u32;
/// mm
pub const CELL_LENGTH_LEAST: u32 = 100;
pub const CELL_LENGTH_MOST: u32 = 100_000;
/// Micrometres, either way.
pub const BED_MOST: i64 = 100_000_000;
/// Micrometres.
pub const DEPTH_MOST: u64 = 4_000_000;
/// Entries of a list of outlets.
pub const OUTLETS_MOST: usize = jemmyfern::OUTLETS_MOST;
/// Micrometres per step.
pub const WANT_MOST: u64 = 4_000_000;
/// mm/s: a discharge is at most this times its depth, either way.
pub const VELOCITY_MOST: u64 = 8_000;
/// Micrograms per litre: a mass is at most this times its base depth.
pub const CONCENTRATION_MOST: u64 = 500_000;
/// m^(1/3)/s, of a bed with friction; 0 is none.
pub const STRICKLER_LEAST: u64 = jemmyfern::STRICKLER_LEAST;
pub const STRICKLER_MOST: u64 = jemmyfern::STRICKLER_MOST;
