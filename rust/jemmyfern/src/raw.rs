//! The C interface, as include/jemmyfern.h declares it. A slice goes over as a pointer and a length.

use crate::{Boundary, Ledger, Outlet};

#[repr(C)]
#[derive(Clone, Copy)]
pub struct Boundaries {
    pub boundaries: [Boundary; 2],
}

#[repr(C)]
pub struct Answer {
    pub refusal: u32,
    pub boundaries: [Boundary; 2],
    pub ledger: Ledger,
}

#[repr(C)]
pub struct Opened {
    pub refusal: u32,
    pub cell_length: u64,
    pub boundaries: [Boundary; 2],
    pub ledger: Ledger,
}

#[repr(C)]
pub struct Stepped {
    pub refusal: u32,
    pub boundaries: [Boundary; 2],
    pub ledger: Ledger,
    pub transported: bool,
}

#[repr(C)]
pub struct Greatest {
    pub refusal: u32,
    pub boundaries: [Boundary; 2],
    pub ledger: Ledger,
    pub time: u64,
    pub place: usize,
}

extern "C" {
    pub fn jemmyfern_open(
        sheet: *const u8,
        sheet_length: usize,
        bed: *mut i64,
        bed_length: usize,
        depth: *mut u64,
        depth_length: usize,
        discharge: *mut i64,
        discharge_length: usize,
        mass: *mut u64,
        mass_length: usize,
        base: *mut u64,
        base_length: usize,
        carried: *mut i64,
        carried_length: usize,
        outlets: *mut Outlet,
        outlets_length: usize,
    ) -> Opened;
    pub fn jemmyfern_step(
        bed: *const i64,
        bed_length: usize,
        depth: *mut u64,
        depth_length: usize,
        discharge: *mut i64,
        discharge_length: usize,
        mass: *mut u64,
        mass_length: usize,
        base: *mut u64,
        base_length: usize,
        carried: *mut i64,
        carried_length: usize,
        outlets: *mut Outlet,
        outlets_length: usize,
        cell_length: u64,
        boundaries: Boundaries,
        ledger: Ledger,
        t: u64,
        strickler: u64,
    ) -> Stepped;
    pub fn jemmyfern_transport(
        bed: *const i64,
        bed_length: usize,
        depth: *const u64,
        depth_length: usize,
        discharge: *const i64,
        discharge_length: usize,
        mass: *mut u64,
        mass_length: usize,
        base: *mut u64,
        base_length: usize,
        carried: *mut i64,
        carried_length: usize,
        outlets: *mut Outlet,
        outlets_length: usize,
        cell_length: u64,
        boundaries: Boundaries,
        ledger: Ledger,
    ) -> Answer;
    pub fn jemmyfern_set_boundaries(
        bed: *const i64,
        bed_length: usize,
        depth: *const u64,
        depth_length: usize,
        discharge: *const i64,
        discharge_length: usize,
        mass: *mut u64,
        mass_length: usize,
        base: *mut u64,
        base_length: usize,
        carried: *mut i64,
        carried_length: usize,
        outlets: *mut Outlet,
        outlets_length: usize,
        cell_length: u64,
        boundaries: Boundaries,
        ledger: Ledger,
        new: Boundaries,
    ) -> Answer;
    pub fn jemmyfern_greatest_step(
        bed: *const i64,
        bed_length: usize,
        depth: *const u64,
        depth_length: usize,
        discharge: *const i64,
        discharge_length: usize,
        mass: *const u64,
        mass_length: usize,
        base: *const u64,
        base_length: usize,
        carried: *const i64,
        carried_length: usize,
        outlets: *const Outlet,
        outlets_length: usize,
        cell_length: u64,
        boundaries: Boundaries,
        ledger: Ledger,
    ) -> Greatest;
    pub fn jemmyfern_write(
        bed: *const i64,
        bed_length: usize,
        depth: *const u64,
        depth_length: usize,
        discharge: *const i64,
        discharge_length: usize,
        mass: *const u64,
        mass_length: usize,
        base: *const u64,
        base_length: usize,
        carried: *const i64,
        carried_length: usize,
        outlets: *const Outlet,
        outlets_length: usize,
        cell_length: u64,
        boundaries: Boundaries,
        ledger: Ledger,
        out: *mut u8,
        out_length: usize,
    ) -> Answer;
}
