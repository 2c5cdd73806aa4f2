//! Settling and end setting ("Settling").

use crate::outlet::{drawn_at, totals_sound, Outlet};
use crate::record::{check, ground, outflow, Answer, Book, Columns, End, Totals};

/// Nutrient that leaves a cell, grains.
#[derive(Clone, Copy, Debug, PartialEq, Eq, Default)]
pub struct Shares {
    pub right: u64,
    pub left: u64,
}

/// Shares of a cell with nutrient m, base depth b and carried water `left` = c(i), `right` = c(i+1).
/// R+L ≤ b ≤ 4·10^6 and m ≤ 500,000·b ≤ 2·10^12, so no product passes 8·10^18 < 2^63.
#[inline]
pub fn shares(m: u64, b: u64, left: i64, right: i64) -> Shares {
    if b == 0 {
        return Shares::default(); // "Both are 0 if b = 0."
    }
    // "R = max(c(i+1),0), L = max(−c(i),0)"
    let r = right.max(0) as u64;
    let l = (-left).max(0) as u64;
    // "Left share = floor(m·(R+L)/b) − right share": the two are cut together
    let right_share = m * r / b;
    Shares {
        right: right_share,
        left: m * (r + l) / b - right_share,
    }
}

fn shares_of(c: &Columns, i: usize) -> Shares {
    shares(c.nutrient[i], c.base[i], c.carried[i], c.carried[i + 1])
}

/// What each outlet takes, in list order: "Shares follow right, left, then outlets in list order,
/// by the same running floors."
pub fn outlet_shares(c: &Columns, outlets: &[Outlet]) -> Vec<u64> {
    (0..outlets.len())
        .map(|k| outlet_share(c, &outlets[..k], &outlets[k]))
        .collect()
}

/// The share of an outlet, `earlier` being those before it in the list.
fn outlet_share(c: &Columns, earlier: &[Outlet], outlet: &Outlet) -> u64 {
    let i = outlet.place();
    let (m, b) = (c.nutrient[i], c.base[i]);
    if b == 0 {
        return 0; // no water, so nothing was drawn
    }
    let before = outflow(c.carried[i], c.carried[i + 1]) + drawn_at(earlier, i) as u64;
    m * (before + outlet.drawn) / b - m * before / b
}

/// The list after a settling with the present c and drawn water.
pub fn settled_list(c: &Columns, outlets: &[Outlet]) -> Vec<Outlet> {
    (outlets.iter().zip(outlet_shares(c, outlets)))
        .map(|(outlet, share)| outlet.settled(share))
        .collect()
}

/// "Water entering at an end brings its amount times that end's concentration."
/// At most 4·10^6 · 500,000 = 2·10^12 grains.
fn entering(water: i64, end: &End) -> u64 {
    water.max(0) as u64 * end.concentration
}

/// What a settling with the present c and ends adds to the book.
pub fn end_nutrient(c: &Columns, ends: &[End; 2]) -> Book {
    let n = c.bed.len();
    Book {
        left: Totals {
            nutrient_in: entering(c.carried[0], &ends[0]),
            nutrient_out: shares_of(c, 0).left,
            ..Totals::default()
        },
        right: Totals {
            nutrient_in: entering(-c.carried[n], &ends[1]),
            nutrient_out: shares_of(c, n - 1).right,
            ..Totals::default()
        },
    }
}

/// "Shares move, [...] b becomes h, c becomes 0." Those of outlets leave the columns here.
pub fn move_shares(c: &mut Columns, outlets: &[Outlet], ends: &[End; 2]) {
    let n = c.bed.len();
    let drawn_shares = outlet_shares(c, outlets);
    let mut from_left = entering(c.carried[0], &ends[0]);
    for i in 0..n {
        let leaving = shares_of(c, i);
        c.nutrient[i] = c.nutrient[i] - leaving.right - leaving.left + from_left;
        if i > 0 {
            c.nutrient[i - 1] += leaving.left;
        }
        from_left = leaving.right;
    }
    c.nutrient[n - 1] += entering(-c.carried[n], &ends[1]);
    for (outlet, share) in outlets.iter().zip(drawn_shares) {
        c.nutrient[outlet.place()] -= share;
    }
    c.base.copy_from_slice(&c.depth);
    c.carried.fill(0);
}

/// Settles; grounds 4 to 9 with 16, then 13.
pub fn settle(
    c: &mut Columns,
    outlets: &mut [Outlet],
    x: u64,
    ends: [End; 2],
    book: Book,
) -> Answer {
    settle_then_hold(c, outlets, x, ends, book, &[], ends)
}

/// "Setting ends gives the new pair, left and right, and settles first under the old pair."
pub fn set_ends(
    c: &mut Columns,
    outlets: &mut [Outlet],
    x: u64,
    ends: [End; 2],
    book: Book,
    new_ends: [End; 2],
) -> Answer {
    settle_then_hold(c, outlets, x, ends, book, &new_ends, new_ends)
}

fn settle_then_hold(
    c: &mut Columns,
    outlets: &mut [Outlet],
    x: u64,
    ends: [End; 2],
    book: Book,
    given: &[End],
    after: [End; 2],
) -> Answer {
    let checked = check(c, outlets, x, &ends, given, &book);
    match checked.and_then(|_| settlement(c, outlets, &ends, &book)) {
        Ok((book, list)) => {
            move_shares(c, outlets, &ends);
            outlets.copy_from_slice(&list);
            Answer {
                refusal: 0,
                ends: after,
                book,
            }
        }
        Err(refusal) => Answer {
            refusal,
            ends,
            book,
        },
    }
}

/// Book and list after a settling; ground 13.
fn settlement(
    c: &Columns,
    outlets: &[Outlet],
    ends: &[End; 2],
    book: &Book,
) -> Result<(Book, Vec<Outlet>), u32> {
    let book = book.gain(&end_nutrient(c, ends))?;
    let list = settled_list(c, outlets);
    ground(13, totals_sound(&list))?;
    Ok((book, list))
}
