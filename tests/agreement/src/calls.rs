//! The calls on a record, opening, the program and the driver, in the types of the second implementation. They require nothing.
//!
//! The second implementation keeps the paper's words: its `End` is a boundary, its `Book` a ledger, its nutrient is mass, and where it settles
//! the product transports. What these tests name themselves has the product's words.

use reference::random::Record;
use reference::record::{Answer, Book, Columns, End, Totals};
use reference::{GreatestAnswer, OpenAnswer, Outlet, StepAnswer, WriteAnswer};

#[repr(C)]
#[derive(Clone, Copy)]
pub struct Boundary {
    kind: u32,
    reserved: u32,
    depth: u64,
    concentration: u64,
    discharge: i64,
}

#[repr(C)]
#[derive(Clone, Copy)]
pub struct Boundaries {
    boundaries: [Boundary; 2],
}

#[repr(C)]
#[derive(Clone, Copy)]
pub struct RawTotals {
    water_in: u64,
    water_out: u64,
    mass_in: u64,
    mass_out: u64,
}

#[repr(C)]
#[derive(Clone, Copy)]
pub struct Ledger {
    left: RawTotals,
    right: RawTotals,
}

#[repr(C)]
#[derive(Clone, Copy, Debug, PartialEq)]
pub struct RawOutlet {
    cell: u64,
    want: u64,
    drawn: u64,
    water: u64,
    mass: u64,
}

#[repr(C)]
pub struct RawAnswer {
    refusal: u32,
    boundaries: [Boundary; 2],
    ledger: Ledger,
}

#[repr(C)]
pub struct RawGreatest {
    refusal: u32,
    boundaries: [Boundary; 2],
    ledger: Ledger,
    time: u64,
    place: usize,
}

#[repr(C)]
pub struct RawStepped {
    refusal: u32,
    boundaries: [Boundary; 2],
    ledger: Ledger,
    transported: bool,
}

#[repr(C)]
struct RawOpened {
    refusal: u32,
    cell_length: u64,
    boundaries: [Boundary; 2],
    ledger: Ledger,
}

/// A list by value: how many are lent, and the first 32 of them.
#[repr(C)]
struct RawOutlets {
    count: usize,
    list: [RawOutlet; 32],
}

#[repr(C)]
struct RawReplayed {
    refusal: u32,
    cell_length: u64,
    boundaries: [Boundary; 2],
    ledger: Ledger,
    outlets: RawOutlets,
}

/// The type of a function of C on a record or, with a name, its declaration. A slice goes as a pointer and a length, bed level, depth, discharge, mass,
/// base depth, carried water and outlets in this order; cell length, boundaries and ledger follow, and what the function takes besides. `$water` says
/// whether it may write depth and discharge, `$slice` the others but the bed level: `mut` or `const`.
#[macro_export]
macro_rules! on_record {
    ($water:tt, $slice:tt $(, $more:ty)* => $answer:ty) => {
        unsafe extern "C" fn(
            *const i64, usize,
            *$water u64, usize,
            *$water i64, usize,
            *$slice u64, usize,
            *$slice u64, usize,
            *$slice i64, usize,
            *$slice $crate::calls::RawOutlet, usize,
            u64, $crate::calls::Boundaries, $crate::calls::Ledger $(, $more)*
        ) -> $answer
    };
    ($function:ident: $water:tt, $slice:tt $(, $more:ty)* => $answer:ty) => {
        extern "C" {
            fn $function(
                z: *const i64, zn: usize,
                h: *$water u64, hn: usize,
                q: *$water i64, qn: usize,
                m: *$slice u64, mn: usize,
                b: *$slice u64, bn: usize,
                c: *$slice i64, cn: usize,
                o: *$slice $crate::calls::RawOutlet, on: usize,
                x: u64, held: $crate::calls::Boundaries, ledger: $crate::calls::Ledger $(, _: $more)*
            ) -> $answer;
        }
    };
}

pub type TransportCall = on_record!(const, mut => RawAnswer);
pub type GreatestCall = on_record!(const, const => RawGreatest);
/// Takes t and Strickler's coefficient.
pub type StepCall = on_record!(mut, mut, u64, u64 => RawStepped);

on_record!(jemmyfern_transport: const, mut => RawAnswer);
on_record!(jemmyfern_greatest_step: const, const => RawGreatest);
on_record!(jemmyfern_step: mut, mut, u64, u64 => RawStepped);
on_record!(jemmyfern_set_boundaries: const, mut, Boundaries => RawAnswer);
on_record!(jemmyfern_write: const, const, *mut u8, usize => RawAnswer);

extern "C" {
    fn jemmyfern_open(
        s: *const u8,
        sn: usize,
        z: *mut i64,
        zn: usize,
        h: *mut u64,
        hn: usize,
        q: *mut i64,
        qn: usize,
        m: *mut u64,
        mn: usize,
        b: *mut u64,
        bn: usize,
        c: *mut i64,
        cn: usize,
        o: *mut RawOutlet,
        on: usize,
    ) -> RawOpened;
    fn harness_replay(
        sheet: *const u8,
        sheetn: usize,
        words: *const u64,
        wordsn: usize,
        sheets: *const u8,
        sheetsn: usize,
        z: *mut i64,
        zn: usize,
        h: *mut u64,
        hn: usize,
        q: *mut i64,
        qn: usize,
        m: *mut u64,
        mn: usize,
        b: *mut u64,
        bn: usize,
        c: *mut i64,
        cn: usize,
        outlets: RawOutlets,
        out: *mut u8,
        outn: usize,
        answers: *mut u64,
        answersn: usize,
    ) -> RawReplayed;
    fn harness_program(input: *const u8, inputn: usize, out: *mut u8, outn: usize) -> usize;
}

fn boundary(e: End) -> Boundary {
    Boundary {
        kind: e.kind,
        reserved: e.zero,
        depth: e.depth,
        concentration: e.concentration,
        discharge: e.discharge,
    }
}

fn end(b: Boundary) -> End {
    End {
        kind: b.kind,
        depth: b.depth,
        concentration: b.concentration,
        zero: b.reserved,
        discharge: b.discharge,
    }
}

fn raw(t: Totals) -> RawTotals {
    RawTotals {
        water_in: t.water_in,
        water_out: t.water_out,
        mass_in: t.nutrient_in,
        mass_out: t.nutrient_out,
    }
}

fn totals(t: RawTotals) -> Totals {
    Totals {
        water_in: t.water_in,
        water_out: t.water_out,
        nutrient_in: t.mass_in,
        nutrient_out: t.mass_out,
    }
}

fn ledger(b: Book) -> Ledger {
    Ledger {
        left: raw(b.left),
        right: raw(b.right),
    }
}

fn book(k: Ledger) -> Book {
    Book {
        left: totals(k.left),
        right: totals(k.right),
    }
}

fn answer(r: RawAnswer) -> Answer {
    Answer {
        refusal: r.refusal,
        ends: r.boundaries.map(end),
        book: book(r.ledger),
    }
}

fn boundaries(ends: [End; 2]) -> Boundaries {
    Boundaries {
        boundaries: ends.map(boundary),
    }
}

/// The list as C is lent it.
fn lent(outlets: &[Outlet]) -> Vec<RawOutlet> {
    let raw = |o: &Outlet| RawOutlet {
        cell: o.cell,
        want: o.want,
        drawn: o.drawn,
        water: o.water,
        mass: o.nutrient,
    };
    outlets.iter().map(raw).collect()
}

/// The list as a call left it, every field of every entry.
fn take_back(outlets: &mut [Outlet], list: &[RawOutlet]) {
    for (outlet, o) in outlets.iter_mut().zip(list) {
        *outlet = Outlet {
            cell: o.cell,
            want: o.want,
            drawn: o.drawn,
            water: o.water,
            nutrient: o.mass,
        };
    }
}

/// Calls `$function` with the record's columns, the list of its outlets, X, boundaries and ledger, and whatever follows. `$water` lends depth and
/// discharge, `$slice` mass, base depth and carried water; nothing writes the bed level.
macro_rules! call {
    ($function:ident, $record:expr, $list:expr, $water:ident, $slice:ident $(, $more:expr)*) => {{
        let Record { columns, x, ends, book, .. } = $record;
        let Columns { bed, depth, discharge, nutrient, base, carried } = columns;
        unsafe {
            $function(
                bed.as_ptr(), bed.len(),
                depth.$water(), depth.len(),
                discharge.$water(), discharge.len(),
                nutrient.$slice(), nutrient.len(),
                base.$slice(), base.len(),
                carried.$slice(), carried.len(),
                $list.as_mut_ptr(), $list.len(),
                *x, boundaries(*ends), ledger(*book) $(, $more)*
            )
        }
    }};
}

pub fn transport(r: &mut Record) -> Answer {
    transport_by(jemmyfern_transport, r)
}

/// As `transport`, by any function of its kind.
pub fn transport_by(function: TransportCall, r: &mut Record) -> Answer {
    let mut list = lent(&r.outlets);
    let a = call!(function, &mut *r, list, as_ptr, as_mut_ptr);
    take_back(&mut r.outlets, &list);
    answer(a)
}

pub fn set_boundaries(r: &mut Record, new: [End; 2]) -> Answer {
    let mut list = lent(&r.outlets);
    let a = call!(
        jemmyfern_set_boundaries,
        &mut *r,
        list,
        as_ptr,
        as_mut_ptr,
        boundaries(new)
    );
    take_back(&mut r.outlets, &list);
    answer(a)
}

/// Writes nowhere, the list included.
pub fn greatest_step(r: &Record) -> GreatestAnswer {
    greatest_step_by(jemmyfern_greatest_step, r)
}

/// As `greatest_step`, by any function of its kind.
pub fn greatest_step_by(function: GreatestCall, r: &Record) -> GreatestAnswer {
    let mut list = lent(&r.outlets);
    let g = call!(function, r, list, as_ptr, as_ptr);
    assert_eq!(list, lent(&r.outlets));
    GreatestAnswer {
        refusal: g.refusal,
        ends: g.boundaries.map(end),
        book: book(g.ledger),
        t: g.time,
        place: g.place,
    }
}

/// A step of t with Strickler's coefficient, 0 for no friction.
pub fn step(r: &mut Record, t: u64, strickler: u64) -> StepAnswer {
    step_by(jemmyfern_step, r, t, strickler)
}

/// As `step`, by any function of its kind.
pub fn step_by(function: StepCall, r: &mut Record, t: u64, strickler: u64) -> StepAnswer {
    let mut list = lent(&r.outlets);
    let s = call!(function, &mut *r, list, as_mut_ptr, as_mut_ptr, t, strickler);
    take_back(&mut r.outlets, &list);
    StepAnswer {
        refusal: s.refusal,
        ends: s.boundaries.map(end),
        book: book(s.ledger),
        settled: s.transported,
    }
}

/// Writes the sheet of a record at the start of `out`, and nowhere else. Transport first.
pub fn write(r: &Record, out: &mut [u8]) -> WriteAnswer {
    let mut list = lent(&r.outlets);
    let w = call!(
        jemmyfern_write,
        r,
        list,
        as_ptr,
        as_ptr,
        out.as_mut_ptr(),
        out.len()
    );
    assert_eq!(list, lent(&r.outlets));
    WriteAnswer {
        refusal: w.refusal,
        ends: w.boundaries.map(end),
        book: book(w.ledger),
    }
}

/// The columns as pointers and lengths, all of them to write, among the other arguments.
macro_rules! lend {
    ($function:ident, $columns:expr, [$($before:expr),*], [$($after:expr),*]) => {{
        let Columns { bed, depth, discharge, nutrient, base, carried } = $columns;
        unsafe {
            $function(
                $($before,)*
                bed.as_mut_ptr(), bed.len(),
                depth.as_mut_ptr(), depth.len(),
                discharge.as_mut_ptr(), discharge.len(),
                nutrient.as_mut_ptr(), nutrient.len(),
                base.as_mut_ptr(), base.len(),
                carried.as_mut_ptr(), carried.len(),
                $($after),*
            )
        }
    }};
}

fn opened(o: RawOpened) -> OpenAnswer {
    OpenAnswer {
        refusal: o.refusal,
        x: o.cell_length,
        ends: o.boundaries.map(end),
        book: book(o.ledger),
    }
}

/// Fills the lent columns from a sheet, and makes the lent list ready.
pub fn open(sheet: &[u8], columns: &mut Columns, outlets: &mut [Outlet]) -> OpenAnswer {
    let mut list = lent(outlets);
    let o = lend!(
        jemmyfern_open,
        columns,
        [sheet.as_ptr(), sheet.len()],
        [list.as_mut_ptr(), list.len()]
    );
    take_back(outlets, &list);
    opened(o)
}

/// Opens the first sheet with the outlets lent to it, and plays the calls of the words. The answer is the first opening's number, and X, boundaries and
/// ledger as the last call left them; and the outlets, of a list by value the first 32.
pub fn replay(
    sheet: &[u8],
    words: &[u64],
    sheets: &[u8],
    columns: &mut Columns,
    outlets: &[Outlet],
    out: &mut [u8],
    answers: &mut [u64],
) -> (OpenAnswer, Vec<Outlet>) {
    let nothing = lent(&[Outlet::default()])[0];
    let mut list = lent(outlets);
    list.resize(32, nothing);
    let by_value = RawOutlets {
        count: outlets.len(),
        list: list.try_into().expect("32 entries"),
    };
    let r = lend!(
        harness_replay,
        columns,
        [
            sheet.as_ptr(),
            sheet.len(),
            words.as_ptr(),
            words.len(),
            sheets.as_ptr(),
            sheets.len()
        ],
        [
            by_value,
            out.as_mut_ptr(),
            out.len(),
            answers.as_mut_ptr(),
            answers.len()
        ]
    );
    let mut last = vec![Outlet::default(); r.outlets.count];
    take_back(&mut last, &r.outlets.list);
    assert!(r
        .outlets
        .list
        .iter()
        .skip(last.len())
        .all(|o| *o == nothing));
    let answer = OpenAnswer {
        refusal: r.refusal,
        x: r.cell_length,
        ends: r.boundaries.map(end),
        book: book(r.ledger),
    };
    (answer, last)
}

/// Room for the text of any input, and a byte that no text holds.
const TEXT_ROOM: usize = 65_536;
const NO_TEXT: u8 = 0xA5;

/// The text that the program prints for this standard input; the bytes behind it keep their values.
pub fn program(input: &[u8]) -> Vec<u8> {
    let mut out = vec![NO_TEXT; TEXT_ROOM];
    let length =
        unsafe { harness_program(input.as_ptr(), input.len(), out.as_mut_ptr(), out.len()) };
    let behind = out.split_off(length);
    assert!(behind.iter().all(|&byte| byte == NO_TEXT), "{length} bytes");
    out
}
