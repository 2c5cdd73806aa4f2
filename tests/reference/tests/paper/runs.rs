//! Random runs of mixed calls: totals and bounds.

use reference::random::{
    any_record, cell_count, damage_end, damage_record, end, record_of, sheet_of, strickler, Random,
    Record, COLUMN_ORDERS,
};
use reference::{greatest_step, set_ends, write, Book, Columns, End, Outlet};

use crate::support::{rough_step, settle, step};

/// What must stay the same, whatever the calls: held, less what came in, plus what went out at the
/// ends and to outlets.
pub fn amounts(record: &Record) -> (i128, i128) {
    let (l, r) = (&record.book.left, &record.book.right);
    let sum = |column: &[u64]| column.iter().map(|&v| i128::from(v)).sum::<i128>();
    let outlets = |total: fn(&Outlet) -> u64| -> i128 {
        (record.outlets.iter().map(total)).map(i128::from).sum()
    };
    let net = |out: [u64; 2], into: [u64; 2]| sum(&out) - sum(&into);
    (
        sum(&record.columns.depth)
            + outlets(|o| o.water)
            + net([l.water_out, r.water_out], [l.water_in, r.water_in]),
        sum(&record.columns.nutrient)
            + outlets(|o| o.nutrient)
            + net(
                [l.nutrient_out, r.nutrient_out],
                [l.nutrient_in, r.nutrient_in],
            ),
    )
}

/// Two numbers that bound every cell and end.
pub struct Bounds {
    pub lower: u64,
    pub upper: u64,
}

impl Bounds {
    pub fn of(record: &Record) -> Bounds {
        let c = &record.columns;
        let mut bounds = Bounds {
            lower: 500_000,
            upper: 0,
        };
        for i in 0..c.bed.len() {
            let Some(lower) = c.nutrient[i].checked_div(c.base[i]) else {
                continue;
            };
            bounds.widen(lower);
            bounds.widen(c.nutrient[i].div_ceil(c.base[i]));
        }
        bounds.widen_by(&record.ends);
        bounds
    }

    fn widen(&mut self, concentration: u64) {
        self.lower = self.lower.min(concentration);
        self.upper = self.upper.max(concentration);
    }

    /// A wall lets no water in, so its concentration does not count.
    fn widen_by(&mut self, ends: &[End; 2]) {
        for end in ends.iter().filter(|end| end.kind != 0) {
            self.widen(u64::from(end.concentration));
        }
    }

    pub fn hold(&self, c: &Columns) -> bool {
        (0..c.bed.len()).all(|i| {
            self.lower * c.base[i] <= c.nutrient[i] && c.nutrient[i] <= self.upper * c.base[i]
        })
    }
}

#[derive(Default)]
pub struct Tally {
    pub steps: u32,
    pub settled: u32,
    pub refused: u32,
}

/// One call with random free arguments; a refused one must change nothing.
pub fn random_call(r: &mut Random, record: &mut Record, bounds: &mut Bounds, tally: &mut Tally) {
    let before = record.clone();
    let refusal = match r.below(12) {
        0 => settle(record),
        1 => {
            let mut given = [end(r), end(r)];
            if r.one_in(4) {
                damage_end(r, &mut given[1]);
            }
            let (c, outlets) = (&mut record.columns, &mut record.outlets);
            let answer = set_ends(c, outlets, record.x, record.ends, record.book, given);
            (record.ends, record.book) = (answer.ends, answer.book);
            bounds.widen_by(&record.ends);
            answer.refusal
        }
        2 => {
            let mut out = vec![0; r.between(80, 2_000) as usize];
            write(
                &record.columns,
                &record.outlets,
                record.x,
                record.ends,
                record.book,
                &mut out,
            )
            .refusal
        }
        _ => {
            let t = greatest_step(
                &record.columns,
                &record.outlets,
                record.x,
                record.ends,
                record.book,
            )
            .t;
            let t = match r.below(6) {
                0 => r.below(1_002),
                1 => t,
                _ => 1 + r.below(t),
            };
            let answer = rough_step(record, t, strickler(r));
            tally.steps += u32::from(answer.refusal == 0);
            tally.settled += u32::from(answer.settled);
            answer.refusal
        }
    };
    if refusal != 0 {
        assert_eq!(*record, before);
        tally.refused += 1;
    }
}

/// The record is sound again: depths from 0 up, ranges, carried water and book.
pub fn sound(record: &Record) -> bool {
    greatest_step(
        &record.columns,
        &record.outlets,
        record.x,
        record.ends,
        record.book,
    )
    .refusal
        == 0
}

#[test]
fn totals_and_bounds_hold_over_mixed_calls_for_all_end_kinds() {
    let mut r = Random::new(13);
    for pair in 0..9 {
        let mut tally = Tally::default();
        for _ in 0..40 {
            let n = cell_count(&mut r);
            let mut record = record_of(&mut r, n, [pair / 3, pair % 3], true);
            assert!(sound(&record));
            let start = amounts(&record);
            let mut bounds = Bounds::of(&record);
            for _ in 0..40 {
                random_call(&mut r, &mut record, &mut bounds, &mut tally);
                assert!(sound(&record));
                assert_eq!(amounts(&record), start);
                assert!(bounds.hold(&record.columns));
            }
        }
        assert!(tally.steps > 100 && tally.settled > 10 && tally.refused > 10);
    }
}

#[test]
fn long_run_between_walls_keeps_every_grain_and_micrometre() {
    let mut r = Random::new(14);
    let mut record = record_of(&mut r, 30, [0, 0], false);
    record.book = Book::default();
    let start = amounts(&record);
    let mut settled = 0;
    for _ in 0..1_000 {
        let t = greatest_step(
            &record.columns,
            &record.outlets,
            record.x,
            record.ends,
            record.book,
        )
        .t;
        let answer = step(&mut record, t);
        assert_eq!(answer.refusal, 0);
        settled += u32::from(answer.settled);
    }
    assert!(settled > 10 && settled < 900, "{settled}");
    assert_eq!(settle(&mut record), 0);
    assert_eq!(amounts(&record), start);
    assert_eq!(record.book, Book::default());
}

#[test]
fn random_records_are_sound_and_carry_both_ways() {
    let mut r = Random::new(15);
    let mut signs = [0; 3];
    for _ in 0..300 {
        let record = any_record(&mut r);
        assert!(sound(&record));
        for c in &record.columns.carried {
            signs[(c.signum() + 1) as usize] += 1;
        }
    }
    assert!(signs.iter().all(|&count| count > 1_000), "{signs:?}");
}

/// The low halves of what a sheet has in 32 bits.
fn cut(record: &mut Record) {
    let low = |value: &mut u64| *value &= u64::from(u32::MAX);
    let c = &mut record.columns;
    c.bed.iter_mut().for_each(|z| *z = i64::from(*z as i32));
    c.depth.iter_mut().for_each(low);
    low(&mut record.x);
    for end in &mut record.ends {
        low(&mut end.depth);
        low(&mut end.concentration);
    }
}

/// Fields 10 to 14 are those of a new outlet.
fn odd_outlet(record: &mut Record, field: u64, value: u64) {
    let mut outlet = Outlet::new(0, 7);
    match field {
        10 => outlet.cell = value,
        11 => outlet.want = value,
        12 => outlet.drawn = value,
        13 => outlet.water = value,
        _ => outlet.nutrient = value,
    }
    record.outlets.push(outlet);
}

#[test]
fn no_values_make_a_call_panic() {
    let mut r = Random::new(16);
    let odd = [
        0,
        1,
        2,
        4_000_000,
        1 << 31,
        1 << 32,
        1 << 63,
        (1 << 63) - 1,
        u64::MAX,
    ];
    for _ in 0..2_000 {
        let n = r.between(1, 4) as usize;
        let mut record = record_of(&mut r, n, [2, 1], true);
        for _ in 0..r.below(4) {
            let i = r.below(n as u64) as usize;
            let value = r.pick(&odd);
            match r.below(15) {
                0 => record.columns.bed[i] = value as i64,
                1 => record.columns.depth[i] = value,
                2 => record.columns.discharge[i] = value as i64,
                3 => record.columns.nutrient[i] = value,
                4 => record.columns.base[i] = value,
                5 => record.columns.carried[i] = value as i64,
                6 => record.ends[0].discharge = value as i64,
                7 => record.ends[0].depth = value,
                8 => record.ends[1].concentration = value,
                9 => record.x = value,
                field => odd_outlet(&mut record, field, value),
            }
        }
        if r.one_in(3) {
            damage_record(&mut r, &mut record, 5);
        }
        let t = r.pick(&odd);
        let given = record.ends;
        let _ = greatest_step(
            &record.columns,
            &record.outlets,
            record.x,
            record.ends,
            record.book,
        );
        let mut out = vec![0; 200];
        let _ = write(
            &record.columns,
            &record.outlets,
            record.x,
            record.ends,
            record.book,
            &mut out,
        );
        rough_step(&mut record.clone(), t, strickler(&mut r));
        settle(&mut record.clone());
        let (c, outlets) = (&mut record.columns.clone(), &mut record.outlets.clone());
        let _ = set_ends(c, outlets, record.x, record.ends, record.book, given);
        cut(&mut record);
        let bytes = sheet_of(&record, COLUMN_ORDERS[0]);
        let outlets = &mut record.outlets.clone();
        let _ = reference::open(&bytes, &mut Columns::of_cells(n), outlets);
    }
}
