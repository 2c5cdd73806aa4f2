//! The tool from outside: each test runs the binary, or holds its library to account.

mod explain;
mod files;
mod friction;
mod inspect;
mod make;
mod outlets;
mod plot;
mod record;
mod run;
mod stored;
mod tools;
mod usage;
