//! Random runs with outlets, and the random lists themselves.

use reference::random::{
    any_record, cell_count, choose_wants, kinds, lend_outlets, odd_outlets, outlets_for_opening,
    record_of, sheet_of, Random, Record, COLUMN_ORDERS,
};
use reference::record::MOST_TOTAL;
use reference::step::available;
use reference::{greatest_step, open, Columns, Outlet};

use crate::runs::{amounts, random_call, sound, Bounds, Tally};
use crate::support::{settle, settled, step, WALL_END};

fn greatest(r: &Record) -> u64 {
    greatest_step(&r.columns, &r.outlets, r.x, r.ends, r.book).t
}

/// A sound record with a list, now and then none.
fn with_outlets(r: &mut Random, kinds: [u32; 2]) -> Record {
    let n = cell_count(r);
    let mut record = record_of(r, n, kinds, true);
    lend_outlets(r, &mut record, true);
    record
}

/// What an outlet had drawn in all by the last settling, and its nutrient.
fn settled_amounts(outlet: &Outlet) -> (i128, i128) {
    let water = i128::from(outlet.water) - i128::from(outlet.drawn);
    (water, i128::from(outlet.nutrient))
}

/// Nutrient of settled water lies within the bounds of the reach.
fn outlet_within(bounds: &Bounds, start: &Outlet, now: &Outlet) -> bool {
    let (before, after) = (settled_amounts(start), settled_amounts(now));
    let (water, nutrient) = (after.0 - before.0, after.1 - before.1);
    i128::from(bounds.lower) * water <= nutrient && nutrient <= i128::from(bounds.upper) * water
}

/// No outlet exceeded its want, and only drawn water and totals changed.
fn drew_at_most_its_want(before: &Outlet, after: &Outlet) -> bool {
    let given = after.water - before.water;
    given <= before.want && (after.cell, after.want) == (before.cell, before.want)
}

#[test]
fn balance_and_bounds_hold_with_outlets() {
    let mut r = Random::new(21);
    for pair in 0..9 {
        let mut tally = Tally::default();
        for _ in 0..40 {
            let mut record = with_outlets(&mut r, [pair / 3, pair % 3]);
            assert!(sound(&record));
            let start = record.outlets.clone();
            let held = amounts(&record);
            let mut bounds = Bounds::of(&record);
            for _ in 0..40 {
                if r.one_in(3) {
                    let t = 1 + r.below(greatest(&record));
                    choose_wants(&mut r, &mut record, t);
                }
                let before = record.outlets.clone();
                random_call(&mut r, &mut record, &mut bounds, &mut tally);
                assert!(sound(&record));
                assert_eq!(amounts(&record), held);
                assert!(bounds.hold(&record.columns));
                let outlets = &record.outlets;
                assert!((before.iter().zip(outlets)).all(|(a, b)| drew_at_most_its_want(a, b)));
                assert!((start.iter().zip(outlets)).all(|(a, b)| outlet_within(&bounds, a, b)));
            }
        }
        assert!(tally.steps > 100 && tally.settled > 10 && tally.refused > 10);
    }
}

#[test]
fn long_run_between_walls_ends_in_the_outlets() {
    let mut r = Random::new(22);
    let mut cells = [(0, 0, 0, 0); 20];
    for (z, h, q, m) in &mut cells {
        *z = r.between(-9_000, 9_000);
        *h = 100_000 + r.below(200_000);
        *q = r.between(-300, 300) * *h as i64;
        *m = r.below(50) * *h + r.below(*h);
    }
    let mut reach = settled(1_000, [WALL_END; 2], &cells);
    // one outlet in the middle, two in the last cell, one that wants nothing
    reach.outlets = [(9, 5_000), (19, 3_000), (19, 300), (4, 0)]
        .map(|(cell, want)| Outlet::new(cell, want))
        .into();
    let held = amounts(&reach);
    let mut settlings = 0;
    for _ in 0..600 {
        let t = greatest(&reach);
        let before = reach.outlets.clone();
        let answer = step(&mut reach, t);
        assert_eq!(answer.refusal, 0);
        settlings += u32::from(answer.settled);
        assert_eq!(amounts(&reach), held);
        assert!((before.iter().zip(&reach.outlets)).all(|(a, b)| drew_at_most_its_want(a, b)));
    }
    assert!(settlings > 10 && settlings < 590, "{settlings}");
    assert_eq!(settle(&mut reach), 0);
    assert_eq!(amounts(&reach), held);
    let water: Vec<u64> = reach.outlets.iter().map(|o| o.water).collect();
    // by then they have most of it
    assert!(water[..3].iter().all(|&w| w > 300), "{water:?}");
    assert_eq!(water[3], 0);
    let left: u64 = reach.columns.depth.iter().sum();
    assert!(left < 400_000, "{left} left, {water:?}");
    assert!(reach.outlets.iter().all(|o| o.drawn == 0));
}

#[test]
fn outlet_that_wants_nothing_changes_nothing() {
    let mut r = Random::new(23);
    let mut steps = 0;
    for _ in 0..200 {
        let mut without = any_record(&mut r);
        let mut with = without.clone();
        let cell = r.below(with.columns.bed.len() as u64);
        with.outlets = vec![Outlet::new(cell, 0)];
        for _ in 0..10 {
            let t = greatest(&without);
            assert_eq!(greatest(&with), t);
            let answers = [step(&mut without, t), step(&mut with, t)];
            assert_eq!(answers[0], answers[1]);
            steps += u32::from(answers[0].refusal == 0);
            if r.one_in(4) {
                assert_eq!(settle(&mut without), settle(&mut with));
            }
            assert_eq!(with.columns, without.columns);
            assert_eq!(with.book, without.book);
            assert_eq!(with.outlets, [Outlet::new(cell, 0)]);
        }
    }
    assert!(steps > 1_000, "{steps}");
}

/// What random lists must come upon.
#[derive(Default, Debug)]
struct Seen {
    empty: u32,
    full: u32,
    crowded: u32,
    first: u32,
    last: u32,
    dry: u32,
    drawn: u32,
    at_limit: u32,
    /// wants of a cell against what there is: nothing, less, as much, one more, more
    wants: [u32; 5],
}

impl Seen {
    fn look(&mut self, record: &Record, t: u64) {
        let (c, outlets) = (&record.columns, &record.outlets);
        let n = c.bed.len();
        let any = |f: &dyn Fn(&Outlet) -> bool| u32::from(outlets.iter().any(f));
        self.empty += u32::from(outlets.is_empty());
        self.full += u32::from(outlets.len() == 32);
        self.first += any(&|o| o.cell == 0);
        self.last += any(&|o| o.is_at(n - 1));
        self.dry += any(&|o| c.depth[o.place()] == 0);
        self.drawn += any(&|o| o.drawn > 0);
        self.at_limit += any(&|o| o.water == MOST_TOTAL || o.nutrient == MOST_TOTAL);
        for (i, most) in available(c, record.x, &record.ends, t).iter().enumerate() {
            let here: Vec<&Outlet> = outlets.iter().filter(|o| o.is_at(i)).collect();
            self.crowded += u32::from(here.len() > 8);
            if !here.is_empty() {
                let sum = here.iter().map(|o| o.want).sum();
                self.wants[against(sum, *most)] += 1;
            }
        }
    }
}

fn against(sum: u64, available: u64) -> usize {
    match sum {
        0 => 0,
        _ if sum < available => 1,
        _ if sum == available => 2,
        _ if sum == available + 1 => 3,
        _ => 4,
    }
}

#[test]
fn random_lists_are_sound_and_of_every_kind() {
    let mut r = Random::new(24);
    let mut seen = Seen::default();
    for _ in 0..1_000 {
        let kinds = kinds(&mut r);
        let mut record = with_outlets(&mut r, kinds);
        assert!(sound(&record));
        let t = 1 + r.below(greatest(&record));
        choose_wants(&mut r, &mut record, t);
        assert!(sound(&record));
        seen.look(&record, t);
    }
    let Seen { wants, .. } = seen;
    let times = [
        seen.empty,
        seen.full,
        seen.crowded,
        seen.first,
        seen.last,
        seen.dry,
        seen.drawn,
        seen.at_limit,
    ];
    assert!(times.iter().all(|&count| count > 20), "{seen:?}");
    assert!(wants.iter().all(|&count| count > 100), "{seen:?}");
}

#[test]
fn odd_lists_give_their_ground() {
    let mut r = Random::new(25);
    let mut count = 0;
    for _ in 0..300 {
        let (n, kinds) = (cell_count(&mut r), kinds(&mut r));
        let settled = record_of(&mut r, n, kinds, false);
        let bytes = sheet_of(&settled, COLUMN_ORDERS[0]);
        let mut record = record_of(&mut r, n, kinds, true);
        lend_outlets(&mut r, &mut record, true);
        for (ground, odd) in odd_outlets(&mut r, &record) {
            let answer = greatest_step(&odd.columns, &odd.outlets, odd.x, odd.ends, odd.book);
            assert_eq!(answer.refusal, ground, "{odd:?}");
            let mut outlets = odd.outlets.clone();
            let opened = open(&bytes, &mut Columns::of_cells(n), &mut outlets);
            assert_eq!(opened.refusal, if ground == 16 { 16 } else { 0 });
            count += u32::from(ground != 0);
        }
    }
    assert!(count > 4_000, "{count}");
}

#[test]
fn lists_for_an_opening_are_zeroed_by_it() {
    let mut r = Random::new(26);
    for _ in 0..200 {
        let (n, kinds) = (cell_count(&mut r), kinds(&mut r));
        let record = record_of(&mut r, n, kinds, false);
        let mut outlets = outlets_for_opening(&mut r, &record);
        let kept: Vec<Outlet> = (outlets.iter())
            .map(|o| Outlet::new(o.cell, o.want))
            .collect();
        let bytes = sheet_of(&record, COLUMN_ORDERS[0]);
        let answer = open(&bytes, &mut Columns::of_cells(n), &mut outlets);
        assert_eq!(answer.refusal, 0);
        assert_eq!(outlets, kept);
    }
}
