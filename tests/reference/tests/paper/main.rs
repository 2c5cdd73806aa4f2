//! Tests of the second implementation, one module for each part of the papers.

mod amounts;
mod damage;
mod errors;
mod figures;
mod friction;
mod friction_grounds;
mod friction_runs;
mod greatest;
mod outlet_grounds;
mod outlet_runs;
mod outlets;
mod program;
mod refusals;
mod refusals_open;
mod refusals_record;
mod runs;
mod settling;
mod sheets;
mod support;
