//! The greatest step ("The greatest step").

use crate::flux::Water;
use crate::outlet::Outlet;
use crate::record::{check, Book, Columns, End, FED};
use crate::step::MOST_T;

#[derive(Clone, Copy, Debug, PartialEq, Eq)]
pub struct GreatestAnswer {
    pub refusal: u32,
    pub ends: [End; 2],
    pub book: Book,
    /// ms
    pub t: u64,
    /// 0 left end, 1..n the cells, n+1 right end
    pub place: usize,
}

/// "the greatest t in 1..1,000 that meets CFL, and the place of the greatest |u|+a"
pub fn greatest_step(
    c: &Columns,
    outlets: &[Outlet],
    x: u64,
    ends: [End; 2],
    book: Book,
) -> GreatestAnswer {
    let mut answer = GreatestAnswer {
        refusal: 0,
        ends,
        book,
        t: 0,
        place: 0,
    };
    let n = match check(c, outlets, x, &ends, &[], &book) {
        Ok(n) => n,
        Err(refusal) => {
            answer.refusal = refusal;
            return answer;
        }
    };
    let mut fastest = end_reach(&ends[0]);
    let mut look = |place: usize, reach: u64| {
        // "Among equal greatest values of |u|+a, the greatest-step call shall name the highest
        // place instead of the lowest": places come in rising order, so an equal one replaces
        if reach >= fastest {
            fastest = reach;
            answer.place = place;
        }
    };
    for i in 0..n {
        look(i + 1, Water::new(0, c.depth[i], c.discharge[i]).reach());
    }
    look(n + 1, end_reach(&ends[1]));
    // |u|+a ≤ 8,000+7,671 and 1,000·X ≥ 100,000: t = 1 always meets CFL
    answer.t = match (1_000 * x).checked_div(fastest) {
        Some(most) => most.min(MOST_T),
        None => MOST_T,
    };
    answer
}

/// "an end that is not fed counts as 0"
fn end_reach(end: &End) -> u64 {
    if end.kind == FED {
        Water::new(0, end.depth, end.discharge).reach()
    } else {
        0
    }
}
