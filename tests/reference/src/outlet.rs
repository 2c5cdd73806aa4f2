//! Outlets along the reach (point 1 of the change requests): the lent list, ground 16, and what
//! outlets draw in a step.

use std::collections::BTreeSet;

use crate::record::{DEEPEST, MOST_TOTAL};

/// "A list of up to 32 outlets is lent with the record"
pub const MOST_OUTLETS: usize = 32;

/// One entry of the list.
#[derive(Clone, Copy, Debug, PartialEq, Eq, Default)]
pub struct Outlet {
    /// counted from 0
    pub cell: u64,
    /// "the depth it wants per step (0..4,000,000)", µm
    pub want: u64,
    /// drawn since the settling, µm
    pub drawn: u64,
    /// total of water since opening, µm
    pub water: u64,
    /// total of nutrient since opening, grains
    pub nutrient: u64,
}

impl Outlet {
    /// An outlet as an opening leaves it.
    pub fn new(cell: u64, want: u64) -> Outlet {
        Outlet {
            cell,
            want,
            ..Outlet::default()
        }
    }

    pub fn is_at(&self, i: usize) -> bool {
        self.cell == i as u64
    }

    /// Place of its cell, once ground 16 has found it in the reach.
    pub fn place(&self) -> usize {
        self.cell as usize
    }

    /// "An opening sets each outlet's drawn water and totals to 0."
    pub fn opened(&self) -> Outlet {
        Outlet::new(self.cell, self.want)
    }

    /// After a settling that gave it this share.
    pub fn settled(&self, share: u64) -> Outlet {
        Outlet {
            drawn: 0,
            nutrient: self.nutrient + share,
            ..*self
        }
    }

    /// After a step that gave it this depth.
    pub fn having(&self, given: u64) -> Outlet {
        Outlet {
            drawn: self.drawn + given,
            water: self.water + given,
            ..*self
        }
    }
}

/// 16: "A list too long, a cell not in the reach or a want out of range"
pub fn list_sound(outlets: &[Outlet], n: usize) -> bool {
    outlets.len() <= MOST_OUTLETS
        && (outlets.iter()).all(|o| o.cell < n as u64 && o.want <= DEEPEST)
}

/// "Entries 9 and 13 include outlet totals".
pub fn totals_sound(outlets: &[Outlet]) -> bool {
    (outlets.iter()).all(|o| o.water <= MOST_TOTAL && o.nutrient <= MOST_TOTAL)
}

/// What the outlets of cell i have drawn since the settling.
/// Before ground 8 an entry may be any number: 32 of them pass 64 bits, not 128.
pub fn drawn_at(outlets: &[Outlet], i: usize) -> u128 {
    (outlets.iter().filter(|o| o.is_at(i)))
        .map(|o| u128::from(o.drawn))
        .sum()
}

/// What each outlet of one cell has of the depth that the cell can give; wants in list order.
pub fn give(available: u64, wants: &[u64]) -> Vec<u64> {
    let sum: u64 = wants.iter().sum();
    // "If the wants of its outlets fit, each has its want"
    if sum <= available {
        return wants.to_vec();
    }
    // "if not, each has floor(available times want / sum of wants)"
    let mut given: Vec<u64> = wants.iter().map(|want| available * want / sum).collect();
    // "the units left go singly, in list order, to those with a want above 0": each of these
    // lost less than a unit by its floor, so there are more of them than units left
    let mut left = available - given.iter().sum::<u64>();
    for (given, &want) in given.iter_mut().zip(wants) {
        if left > 0 && want > 0 {
            *given += 1;
            left -= 1;
        }
    }
    given
}

/// What each outlet draws in a step, in list order; `available` is what a cell can give.
pub fn draws(outlets: &[Outlet], available: impl Fn(usize) -> u64) -> Vec<u64> {
    let mut drawn = vec![0; outlets.len()];
    let cells: BTreeSet<usize> = outlets.iter().map(Outlet::place).collect();
    for i in cells {
        let entries = || (0..outlets.len()).filter(|&k| outlets[k].is_at(i));
        let wants: Vec<u64> = entries().map(|k| outlets[k].want).collect();
        for (k, given) in entries().zip(give(available(i), &wants)) {
            drawn[k] = given;
        }
    }
    drawn
}

/// What all outlets of a cell draw in a step, for each of n cells.
pub fn drawn_by_cell(outlets: &[Outlet], draws: &[u64], n: usize) -> Vec<u64> {
    let mut sums = vec![0; n];
    for (o, given) in outlets.iter().zip(draws) {
        sums[o.place()] += given;
    }
    sums
}
