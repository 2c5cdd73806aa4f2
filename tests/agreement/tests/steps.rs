//! The water step against the second implementation, alone and in long lists of calls: refusal, boundaries, ledger, whether a transport
//! came first, and every column entry by entry. Then the figures of document 01, still water, and the balance of the ledger.

use agreement::both::{
    allowed_strickler, brim, broken, fill_ledger, fresh, greatest, same, two_cells, Call, Outcome,
    WALL,
};
use agreement::calls;
use reference::flux::speed;
use reference::random::{
    book_from, cell_count, damage_end, end, kinds, record, record_of, strickler, Random, Record,
};
use reference::record::{DEEPEST, FASTEST, MOST_CELLS, MOST_TOTAL, OPEN};
use reference::{Book, End, StepAnswer};
use std::collections::{BTreeMap, BTreeSet};

/// Any number of cells, the greatest one time in forty.
fn cells(r: &mut Random) -> usize {
    if r.one_in(40) {
        MOST_CELLS
    } else {
        cell_count(r)
    }
}

/// What the single steps came upon.
#[derive(Default)]
struct Seen {
    steps: u64,
    /// 0 for an accepted step
    grounds: BTreeMap<u32, u64>,
    /// kinds of the boundaries and number of cells, of accepted steps
    kinds: BTreeSet<[u32; 2]>,
    lengths: BTreeSet<usize>,
    /// totals that ground 13 stopped, as `totals` counts them
    full: BTreeSet<usize>,
    /// accepted steps that showed each of `marks`
    marks: BTreeMap<&'static str, u64>,
}

/// Things that an accepted step can show, most of them in some cell.
fn marks(before: &Record, after: &Record, transported: bool) -> Vec<(&'static str, bool)> {
    let (old, new) = (&before.columns, &after.columns);
    let n = old.bed.len();
    let fastest = FASTEST as i64;
    let moving = |i: usize| speed(old.depth[i], old.discharge[i]);
    let moved = |i: usize| new.depth[i] > 0 && new.discharge[i] != old.discharge[i];
    let most = |i: usize| fastest * new.depth[i] as i64;
    // the water of cell i ends below the bed of cell j
    let below = |i: usize, j: usize| (1..=old.bed[j] - old.bed[i]).contains(&(old.depth[i] as i64));
    let cells: [(_, &dyn Fn(usize) -> bool); 8] = [
        ("dry", &|i| old.depth[i] == 0 && new.depth[i] == 0),
        ("flooded", &|i| old.depth[i] == 0 && new.depth[i] > 0),
        ("last drop", &|i| old.depth[i] > 1 && new.depth[i] == 1),
        ("sill", &|i| i > 0 && (below(i, i - 1) || below(i - 1, i))),
        ("rightwards", &|i| moving(i) == fastest),
        ("leftwards", &|i| moving(i) == -fastest),
        ("held right", &|i| moved(i) && new.discharge[i] == most(i)),
        ("held left", &|i| moved(i) && new.discharge[i] == -most(i)),
    ];
    let mut shown = vec![("transported", transported), ("kept", !transported)];
    shown.extend(cells.map(|(mark, shows)| (mark, (0..n).any(shows))));
    shown
}

/// One step on both, noted; the record stays.
fn step(record: &Record, t: u64, f: u64, seen: &mut Seen) -> Outcome {
    let mut after = record.clone();
    let answer = same(Call::Step(t, f), &mut after);
    seen.steps += 1;
    *seen.grounds.entry(answer.refusal).or_default() += 1;
    if answer.refusal == 0 {
        seen.kinds.insert(record.ends.map(|e| e.kind));
        seen.lengths.insert(record.columns.bed.len());
        for (mark, shown) in marks(record, &after, answer.transported) {
            *seen.marks.entry(mark).or_default() += u64::from(shown);
        }
        stays_wet(record, &after);
    }
    answer
}

/// CFL holds what leaves a cell under its depth, since the wave speed of a wet cell is not 0: no wet cell falls dry.
fn stays_wet(before: &Record, after: &Record) {
    let depths = before.columns.depth.iter().zip(&after.columns.depth);
    for (&old, &new) in depths {
        assert!(
            old == 0 || new > 0,
            "a cell of {old} fell dry in {before:?}"
        );
    }
}

/// About the greatest step, far beyond it, small, and out of range; one would be in range if it were cut to 32 bits.
fn times(r: &mut Random, record: &Record) -> [u64; 11] {
    let most = greatest(record);
    let beyond = most + r.below(1_001 - most);
    let (small, any) = (1 + r.below(10), 1 + r.below(1_000));
    let cut = (1 << 32) + most;
    [
        most - 1,
        most,
        most + 1,
        beyond,
        small,
        any,
        0,
        1_000,
        1_001,
        cut,
        u64::MAX,
    ]
}

/// The eight totals, left, then right.
fn totals(ledger: &Book) -> [u64; 8] {
    let [l, r] = [ledger.left, ledger.right];
    [
        l.water_in,
        l.water_out,
        l.nutrient_in,
        l.nutrient_out,
        r.water_in,
        r.water_out,
        r.nutrient_in,
        r.nutrient_out,
    ]
}

/// A ledger that the step fills to the last unit, then each total that it adds to with one unit less room.
fn to_the_limit(record: &Record, t: u64, f: u64, seen: &mut Seen) {
    let with = |totals: [u64; 8]| Record {
        book: book_from(totals),
        ..record.clone()
    };
    let answer = step(&with([0; 8]), t, f, seen);
    if answer.refusal != 0 {
        return;
    }
    let gains = totals(&answer.ledger);
    let room = gains.map(|gain| MOST_TOTAL - gain);
    let filled = step(&with(room), t, f, seen);
    assert_eq!(filled.refusal, 0);
    assert_eq!(totals(&filled.ledger), [MOST_TOTAL; 8]);
    for (k, _) in gains.iter().enumerate().filter(|(_, &gain)| gain > 0) {
        let mut over = room;
        over[k] += 1;
        assert_eq!(step(&with(over), t, f, seen).refusal, 13);
        seen.full.insert(k);
    }
}

/// A sound record, the same brimful, with a full ledger, and broken in each way.
fn around(r: &mut Random, record: &Record, seen: &mut Seen) {
    let times = times(r, record);
    for t in times {
        step(record, t, strickler(r), seen);
    }
    to_the_limit(record, r.pick(&times[..5]), allowed_strickler(r), seen);
    let mut full = record.clone();
    fill_ledger(&mut full);
    step(&full, r.pick(&times), strickler(r), seen);
    let mut deep = record.clone();
    brim(r, &mut deep);
    let most = greatest(&deep);
    for t in [most, most + 1, r.pick(&times)] {
        step(&deep, t, strickler(r), seen);
    }
    for b in broken(r, record) {
        let answer = step(&b.record, r.pick(&times), strickler(r), seen);
        assert_eq!(answer.refusal, b.ground);
    }
}

/// At least 100,000 single steps, and everything that they must have come upon.
#[test]
fn single_steps_agree() {
    let mut r = Random::new(23);
    let mut seen = Seen::default();
    while seen.steps < 400_000 {
        let n = cells(&mut r);
        let record = record(&mut r, n);
        around(&mut r, &record, &mut seen);
    }
    for ground in (4..=13).chain([0, 16, 17]) {
        assert!(seen.grounds.contains_key(&ground), "{ground}");
    }
    for (mark, times) in &seen.marks {
        assert!(*times > 0, "{mark}");
    }
    assert_eq!(seen.kinds.len(), 9, "{:?}", seen.kinds);
    assert_eq!(seen.full.len(), 8, "{:?}", seen.full);
    assert!(seen.lengths.contains(&1) && seen.lengths.contains(&MOST_CELLS));
}

/// Three deep cells of which the middle one gains, and beyond them a cell on high ground that is faster than they are.
fn deep_and_fast(fast_first: bool) -> Record {
    let deep = |u: i64| (0, DEEPEST, u * DEEPEST as i64, 0);
    let fast = |u: i64| (50_000_000, 1_000, u * 1_000, 0);
    let open = End { kind: OPEN, ..WALL };
    if fast_first {
        let cells = [fast(-8_000), deep(10), deep(0), deep(-10)];
        fresh(1_000, [open, WALL], &cells)
    } else {
        let cells = [deep(10), deep(0), deep(-10), fast(8_000)];
        fresh(1_000, [WALL, open], &cells)
    }
}

/// t out of range, another coefficient, a cell too fast, another one too deep and a full ledger: 10, 17, 11, 12 and 13 come in this order.
#[test]
fn a_step_looks_at_its_grounds_in_order() {
    for fast_first in [true, false] {
        let mut record = deep_and_fast(fast_first);
        let number = |record: &Record, t, f| same(Call::Step(t, f), &mut record.clone()).refusal;
        let refusal = |record: &Record, t| number(record, t, 0);
        // |u|+a is 8,121 in the fast cell, and at most 7,680 in the others
        assert_eq!(greatest(&record), 123);
        fill_ledger(&mut record);
        assert_eq!([0, 1_001].map(|t| number(&record, t, 9)), [10, 10]);
        assert_eq!([123, 124].map(|t| number(&record, t, 9)), [17, 17]);
        assert_eq!([124, 130].map(|t| refusal(&record, t)), [11, 11]);
        assert_eq!(refusal(&record, 123), 12);
        let middle = if fast_first { 2 } else { 1 };
        record.columns.depth[middle] -= 1_000_000;
        record.columns.base[middle] -= 1_000_000;
        assert_eq!(refusal(&record, 123), 13);
        record.book = Book::default();
        assert_eq!(refusal(&record, 123), 0);
    }
}

/// What the lists came upon: calls by name and refusal, steps by whether a transport came first, and the numbers of cells.
#[derive(Default)]
struct Listed {
    lengths: BTreeSet<usize>,
    calls: BTreeMap<(&'static str, u32), u64>,
    transported: BTreeMap<bool, u64>,
}

/// Mostly the greatest step; near it, beyond it, small ones and some out of range too.
fn time(r: &mut Random, most: u64) -> u64 {
    match r.below(16) {
        0 => most - 1,
        1 => most + 1,
        2 => most + r.below(1_001),
        3 => 1 + r.below(10),
        4 => 1 + r.below(most),
        5 => r.pick(&[0, most << 32, u64::MAX]),
        _ => most,
    }
}

/// Any call, `most` being the greatest step of the record.
fn any_call(r: &mut Random, most: u64) -> Call {
    match r.below(40) {
        0..=2 => Call::Transport,
        3 => Call::SetBoundaries([end(r), end(r)]),
        4 => {
            let mut new = [end(r), end(r)];
            let side = r.below(2) as usize;
            damage_end(r, &mut new[side]);
            Call::SetBoundaries(new)
        }
        5..=7 => Call::Greatest,
        _ => Call::Step(time(r, most), strickler(r)),
    }
}

/// As after an opening, or one time in four with carried water and a ledger that may be nearly full.
fn start(r: &mut Random) -> Record {
    let n = match r.below(40) {
        0 => MOST_CELLS,
        1 => r.between(1, 512) as usize,
        _ => r.between(1, 9) as usize,
    };
    if r.one_in(4) {
        return record(r, n);
    }
    let kinds = kinds(r);
    Record {
        book: Book::default(),
        ..record_of(r, n, kinds, false)
    }
}

/// One list: each call is given the columns as they stand, and the boundaries and ledger last handed back.
fn list(r: &mut Random, record: &mut Record, calls: u64, listed: &mut Listed) {
    listed.lengths.insert(record.columns.bed.len());
    for _ in 0..calls {
        let call = any_call(r, greatest(record));
        let answer = same(call, record);
        let came_out = (call.name(), answer.refusal);
        *listed.calls.entry(came_out).or_default() += 1;
        if came_out == ("step", 0) {
            *listed.transported.entry(answer.transported).or_default() += 1;
        }
    }
}

/// 2,000 lists of up to 500 calls, each call compared, the moments of transport with it.
#[test]
fn lists_of_calls_agree() {
    let mut r = Random::new(29);
    let mut listed = Listed::default();
    for k in 0..2_000 {
        let mut record = start(&mut r);
        let calls = if k % 4 == 0 { 500 } else { 1 + r.below(500) };
        list(&mut r, &mut record, calls, &mut listed);
    }
    for came_out in [
        ("transport", 0),
        ("setting of boundaries", 0),
        ("setting of boundaries", 6),
        ("greatest step", 0),
        ("step", 0),
        ("step", 10),
        ("step", 11),
        ("step", 12),
        ("step", 13),
        ("step", 17),
    ] {
        assert!(listed.calls.contains_key(&came_out), "{came_out:?}");
    }
    assert_eq!(listed.transported.len(), 2, "{:?}", listed.transported);
    assert!(listed.lengths.contains(&1) && listed.lengths.contains(&MOST_CELLS));
}

/// Document 01: two cells, walls, X 1,000, depths 1,000,000 and 100,000 at rest, one step of 100, then a transport.
#[test]
fn two_cell_run() {
    let mut record = two_cells();
    let stepped = calls::step(&mut record, 100, 0);
    assert_eq!((stepped.refusal, stepped.settled), (0, false));
    assert_eq!(stepped.book, Book::default());
    assert_eq!(record.columns.carried, [0, 92_868, 0]);
    let transported = calls::transport(&mut record);
    assert_eq!(
        (transported.refusal, transported.book),
        (0, Book::default())
    );
    let c = &record.columns;
    assert_eq!(c.depth, [907_132, 192_868]);
    assert_eq!(c.discharge, [242_795_920, 242_795_920]);
    assert_eq!(c.nutrient, [2_721_396, 278_604]);
    assert_eq!(c.base, c.depth);
    assert_eq!(c.carried, [0, 0, 0]);
}

/// Document 01: depth 1,000,000 at rest, X 1,000: t 260 passes CFL, 261 is 11.
#[test]
fn longest_step_at_one_metre() {
    let still = fresh(1_000, [WALL; 2], &[(0, 1_000_000, 0, 0)]);
    let mut record = still.clone();
    let refused = calls::step(&mut record, 261, 0);
    assert_eq!((refused.refusal, refused.settled), (11, false));
    assert_eq!((refused.ends, refused.book), (still.ends, still.book));
    assert_eq!(record, still);
    assert_eq!(calls::step(&mut record, 260, 0).refusal, 0);
}

/// Water at rest between walls with its surface at 0; where the bed is above it the reach is dry.
fn level(x: u64, bed: impl Iterator<Item = i64>) -> Record {
    let cells: Vec<_> = bed
        .map(|z| (z, (-z).max(0) as u64))
        .map(|(z, h)| (z, h, 0, 7 * h))
        .collect();
    fresh(x, [WALL; 2], &cells)
}

/// 10,000 times the greatest step, with friction every second time, and nothing at all has changed after each.
fn stays_still(still: &Record) {
    let mut record = still.clone();
    for k in 0..10_000 {
        let t = calls::greatest_step(&record).t;
        let expected = StepAnswer {
            refusal: 0,
            ends: still.ends,
            book: still.book,
            settled: false,
        };
        assert_eq!(calls::step(&mut record, t, [0, 35][k % 2]), expected);
        assert_eq!(record, *still);
    }
}

#[test]
fn still_water_over_a_sloping_bed_stays_still() {
    for (n, slope, x) in [
        (1, 0, 1_000),
        (2, 1_000_000, 100),
        (40, 99_999, 1_000),
        (100, -12_345, 7_777),
        (512, 1, 100_000),
        (512, -37, 500),
        (512, 7_811, 100),
    ] {
        let foot = -1 - slope.max(0) * n;
        stays_still(&level(x, (0..n).map(|i| foot + slope * i)));
    }
}

#[test]
fn still_water_about_islands_stays_still() {
    let mut r = Random::new(31);
    for (n, deepest) in [(3, 2), (60, 50_000), (512, DEEPEST as i64)] {
        let bed = (0..n).map(|_| r.between(-deepest, deepest / 4));
        stays_still(&level(1_000, bed));
    }
    // the surface just at the top of one island, and one island at either wall
    stays_still(&level(
        100,
        [5, -900_000, 0, -1, 90_000_000, -3_000_000, 1].into_iter(),
    ));
}

/// Water and mass held, less what came in, and with what went out, by the ledger: no call changes either.
fn held_and_passed(record: &Record) -> [i128; 2] {
    let held = |column: &[u64]| column.iter().map(|&v| i128::from(v)).sum::<i128>();
    let k = totals(&record.book).map(i128::from);
    [
        held(&record.columns.depth) - k[0] + k[1] - k[4] + k[5],
        held(&record.columns.nutrient) - k[2] + k[3] - k[6] + k[7],
    ]
}

/// Without the second implementation: after each call of a long list the ledger accounts for all water and mass, and no cell
/// is deeper than 4,000,000.
#[test]
fn the_ledger_accounts_for_water_and_mass() {
    let mut r = Random::new(37);
    let mut moved = BTreeSet::new();
    for _ in 0..200 {
        let mut record = start(&mut r);
        let opening = held_and_passed(&record);
        let opened = totals(&record.book);
        for _ in 0..2_000 {
            let call = any_call(&mut r, calls::greatest_step(&record).t);
            let answer = call.ours(&mut record);
            (record.ends, record.book) = (answer.boundaries, answer.ledger);
            assert_eq!(held_and_passed(&record), opening, "{call:?}");
            assert!(record.columns.depth.iter().all(|&h| h <= DEEPEST));
        }
        let closed = totals(&record.book);
        moved.extend((0..8).filter(|&k| closed[k] > opened[k]));
    }
    assert_eq!(moved.len(), 8, "{moved:?}");
}
