//! Second implementation of the reach model, written from the papers alone.
//!
//! Units: bed level and depth in µm, speed in mm/s, discharge in µm·mm/s, cell length X in mm,
//! time step t in ms, concentration in µg/l, nutrient in grains (1 µm of depth at 1 µg/l).

pub mod flux;
pub mod friction;
pub mod greatest;
pub mod outlet;
pub mod program;
pub mod random;
pub mod record;
pub mod settling;
pub mod sheet;
pub mod step;

pub use greatest::{greatest_step, GreatestAnswer};
pub use outlet::Outlet;
pub use program::program;
pub use record::{Answer, Book, Columns, End, Totals};
pub use settling::{set_ends, settle};
pub use sheet::{open, write, OpenAnswer, WriteAnswer};
pub use step::{step, StepAnswer};
