//! The place of the greatest step against the second implementation: 200,000 calls, most of them on reaches where several places are as fast.

use agreement::both::{fresh, same, Call};
use reference::flux::{wave_speed, Water};
use reference::random::{end_of_kind, kinds, lend_outlets, record, Random, Record};
use reference::record::{End, FASTEST, FED, LEAST_X, MOST_CELLS, MOST_X};
use std::collections::BTreeMap;

const CALLS: u64 = 200_000;

/// |u|+a by place: the left boundary, the cells, the right boundary; one that is not fed counts as 0.
fn speeds(record: &Record) -> Vec<u64> {
    let speed = |h: u64, q: i64| Water::new(0, h, q).reach();
    let boundary = |e: &End| match e.kind {
        FED => speed(e.depth, e.discharge),
        _ => 0,
    };
    let [left, right] = &record.ends;
    let c = &record.columns;
    let cells = c.depth.iter().zip(&c.discharge).map(|(&h, &q)| speed(h, q));
    let mut all = vec![boundary(left)];
    all.extend(cells);
    all.push(boundary(right));
    all
}

/// A discharge that makes |u|+a of this depth that of `speed`, to either side; at rest where none does.
fn discharge(r: &mut Random, depth: u64, speed: u64) -> i64 {
    let u = speed - wave_speed(depth);
    if depth == 0 || u > FASTEST {
        return 0;
    }
    // u is cut towards zero, so that what is left of the quotient may be anything
    let rest = if u == FASTEST { 0 } else { r.below(depth) };
    let size = (u * depth + rest) as i64;
    r.pick(&[size, -size])
}

/// Any sound record, with carried water and outlets: the places that can have one speed, that of the fastest at rest or more, and some are left at rest.
fn levelled(r: &mut Random, n: usize) -> Record {
    let mut record = record(r, n);
    lend_outlets(r, &mut record, true);
    let Record { columns, ends, .. } = &mut record;
    let fed = ends.iter_mut().filter(|e| e.kind == FED);
    let fed = fed.map(|e| (e.depth, &mut e.discharge));
    let cells = columns.depth.iter().copied().zip(&mut columns.discharge);
    let places: Vec<_> = cells.chain(fed).collect();
    let waves = places.iter().map(|p| wave_speed(p.0));
    let speed = waves.max().unwrap_or_default() + r.pick(&[0, 1, 400, FASTEST]);
    let spared = r.pick(&[2, 4, 1_000]);
    for (depth, q) in places {
        let at_rest = r.one_in(spared);
        *q = if at_rest {
            0
        } else {
            discharge(r, depth, speed)
        };
    }
    record
}

/// A cell length, mm.
fn length(r: &mut Random) -> u64 {
    r.pick(&[LEAST_X, 1_000, MOST_X])
}

/// Water at rest, of two depths at most, at the boundaries too (a fed one has at least 1).
fn at_rest(r: &mut Random, n: usize) -> Record {
    let depths = [1 + r.below(4_000_000), r.below(3)];
    let slow = r.pick(&[2, 8]);
    let depth = |r: &mut Random| depths[usize::from(r.one_in(slow))];
    let cells: Vec<_> = (0..n).map(|_| (0, depth(r), 0, 0)).collect();
    let boundaries = kinds(r).map(|kind| match kind {
        FED => End {
            kind,
            depth: depth(r).max(1),
            ..End::default()
        },
        _ => end_of_kind(r, kind),
    });
    fresh(length(r), boundaries, &cells)
}

/// No water in the cells; boundaries that are fed are fed alike.
fn dry(r: &mut Random, n: usize) -> Record {
    let fed = end_of_kind(r, FED);
    let boundaries = kinds(r).map(|kind| match kind {
        FED => fed,
        _ => end_of_kind(r, kind),
    });
    fresh(length(r), boundaries, &vec![(0, 0, 0, 0); n])
}

const TIES: [&str; 6] = [
    "all places, dry",
    "both boundaries",
    "both boundaries and cells",
    "the left boundary and cells",
    "cells and the right boundary",
    "cells",
];

/// Who shares the greatest |u|+a: one of `TIES`, or nobody.
fn shared_by(speeds: &[u64]) -> &'static str {
    let most = *speeds.iter().max().expect("a place");
    let right = speeds.len() - 1;
    let cells = speeds[1..right].iter().filter(|&&v| v == most).count();
    match (speeds[0] == most, cells, speeds[right] == most) {
        _ if most == 0 => "all places, dry",
        (true, 0, true) => "both boundaries",
        (true, 1.., true) => "both boundaries and cells",
        (true, 1.., false) => "the left boundary and cells",
        (false, 1.., true) => "cells and the right boundary",
        (false, 2.., false) => "cells",
        _ => "nobody",
    }
}

#[test]
fn among_equals_both_name_the_highest_place() {
    let mut r = Random::new(29);
    let mut seen = BTreeMap::<(&str, usize), u64>::new();
    for _ in 0..CALLS {
        let few = 2 + r.below(12) as usize;
        let n = r.pick(&[1, few, few, few]);
        let n = if r.one_in(40) { MOST_CELLS } else { n };
        let make = r.pick(&[levelled, at_rest, at_rest, dry]);
        let mut record = make(&mut r, n);
        let speeds = speeds(&record);
        let answer = same(Call::Greatest, &mut record);
        assert_eq!(answer.refusal, 0, "{record:?}");
        let most = speeds.iter().max();
        let last = speeds.iter().rposition(|v| Some(v) == most);
        assert_eq!(Some(answer.greatest.1), last, "{record:?}");
        *seen.entry((shared_by(&speeds), n)).or_default() += 1;
    }
    let of = |who, n| seen.get(&(who, n)).copied().unwrap_or_default();
    let tied = |who| -> u64 {
        let met = seen.iter().filter(|((by, _), _)| *by == who);
        met.map(|(_, times)| times).sum()
    };
    for who in TIES {
        assert!(tied(who) >= 4_000, "{who}: {seen:?}");
        assert!(of(who, MOST_CELLS) >= 100, "{who} of 512: {seen:?}");
        // two equal cells are two
        assert!(
            who == "cells" || of(who, 1) >= 1_000,
            "{who} of 1: {seen:?}"
        );
    }
    let ties: u64 = TIES.map(tied).iter().sum();
    assert!(ties >= CALLS * 3 / 5, "{ties} of {CALLS}");
}
