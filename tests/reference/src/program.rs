//! The program: "reads a sheet and then u32 step count and u32 t [...], opens, steps, settles,
//! and prints".

use std::fmt::Write;

use crate::record::{Book, Columns, MOST_CELLS};
use crate::settling::settle;
use crate::sheet::{open, sheet_length, HEADER, PER_CELL};
use crate::step::step;

/// Step count and t after the sheet.
const TRAILER: usize = 8;
const MOST_STEPS: u32 = 1_000;
/// "F is given with the step, 0 by the program"
const NO_FRICTION: u64 = 0;

/// The text printed for this standard input.
pub fn program(input: &[u8]) -> String {
    match run(input) {
        Ok((columns, book)) => text(&columns, &book),
        // "A refusal prints only `refused` and the number."
        Err(refusal) => format!("refused {refusal}\n"),
    }
}

fn run(input: &[u8]) -> Result<(Columns, Book), u32> {
    // "Under 8 bytes in all is 1, over 12,376 is 2"
    let sheet_bytes = input.len().checked_sub(TRAILER).ok_or(1u32)?;
    if sheet_bytes > sheet_length(MOST_CELLS) {
        return Err(2);
    }
    let (sheet, trailer) = input.split_at(sheet_bytes);
    let word = |at: usize| u32::from_le_bytes([0, 1, 2, 3].map(|k| trailer[at + k]));
    let (count, t) = (word(0), u64::from(word(4)));

    // columns lent for the n that the sheet's bytes hold; another n is ground 1 or 2
    let n = sheet.len().saturating_sub(HEADER) / PER_CELL;
    let mut c = Columns::of_cells(n);
    // a run has no outlets
    let outlets = &mut [];
    let opened = open(sheet, &mut c, outlets);
    accepted(opened.refusal)?;
    let (x, ends, mut book) = (opened.x, opened.ends, opened.book);

    // "a count over 1,000, looked at after opening, is 10"
    if count > MOST_STEPS {
        return Err(10);
    }
    for _ in 0..count {
        let stepped = step(&mut c, outlets, x, ends, book, t, NO_FRICTION);
        accepted(stepped.refusal)?;
        book = stepped.book;
    }
    let settled = settle(&mut c, outlets, x, ends, book);
    accepted(settled.refusal)?;
    Ok((c, settled.book))
}

fn accepted(refusal: u32) -> Result<(), u32> {
    if refusal == 0 {
        Ok(())
    } else {
        Err(refusal)
    }
}

fn text(c: &Columns, book: &Book) -> String {
    let mut out = format!("cells {}\n", c.bed.len());
    for i in 0..c.bed.len() {
        let (h, q, m) = (c.depth[i], c.discharge[i], c.nutrient[i]);
        writeln!(out, "{i} {h} {q} {m}").expect("a string takes any text");
    }
    out.push_str("book");
    // "eight totals: left, then right"
    for side in [&book.left, &book.right] {
        for total in [
            side.water_in,
            side.water_out,
            side.nutrient_in,
            side.nutrient_out,
        ] {
            write!(out, " {total}").expect("a string takes any text");
        }
    }
    out.push('\n');
    out
}
