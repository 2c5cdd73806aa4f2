//! The one-dimensional test cases of INRIA report 4529, run with the proved library and set beside what the report prints;
//! and uniform flow with friction beside Strickler's formula.

pub mod cases;
pub mod exact;
pub mod floating;
pub mod pictures;
pub mod profile;
pub mod run;
pub mod tables;
pub mod uniform;
