//! Sheets of a canal reach: an owned record over the proved library, a text form that a person writes, words for what a sheet holds or why it
//! is refused, outlets, runs with their balance, and charts.

pub mod balance;
pub mod chart;
pub mod describe;
pub mod duration;
pub mod explain;
pub mod layout;
pub mod limits;
pub mod outlets;
pub mod plot;
pub mod record;
pub mod run;
pub mod table;
pub mod units;
