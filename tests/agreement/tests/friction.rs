//! Friction of the bed: 300,000 steps of the C function against the second implementation, in thin and in deep water, with and without outlets. Then
//! what friction leaves alone, figures worked out by hand, and where ground 17 stands.

use agreement::both::{brim, fill_ledger, fresh, greatest, same, two_cells, Call, GROUNDS, WALL};
use reference::flux::{interface, speed, Crossing, Water};
use reference::friction::{allowed, ROOTS};
use reference::random::{
    cell_count, damage_record, end_of_kind, kinds, lend_outlets, record, strickler, Random, Record,
};
use reference::record::{DEEPEST, FASTEST, FED, LEAST_X, MOST_CELLS, MOST_TOTAL, MOST_X, OPEN};
use reference::step::MOST_T;
use reference::{End, Outlet};
use std::collections::{BTreeMap, BTreeSet};

const STEPS: u64 = 300_000;

/// The depths at which the first two centimetres are whole, and those just below.
const BRINKS: [u64; 4] = [9_999, 10_000, 19_999, 20_000];

/// A depth up to `most`: dry or a film, a whole number of centimetres or a little less or more, or any.
fn depth(r: &mut Random, most: u64) -> u64 {
    let whole = 10_000 * r.below(most / 10_000 + 1);
    let depth = match r.below(8) {
        0 => r.below(21),
        1 => r.pick(&BRINKS),
        2 => whole,
        3 => (whole + r.below(20)).saturating_sub(10),
        _ => r.below(most + 1),
    };
    depth.min(most)
}

/// A discharge of up to `fastest` mm/s to either side, mostly of a speed that is not whole.
fn discharge(r: &mut Random, depth: u64, fastest: u64) -> i64 {
    let (most, any) = (fastest * depth, r.below(fastest * depth + 1));
    let size = r.pick(&[most, any, any, any, any / 8]) as i64;
    r.pick(&[size, -size])
}

/// A reach that flows on: every cell is as the others, so that no depth changes but by outlets.
fn even(r: &mut Random, n: usize, most: u64, fastest: u64) -> Record {
    let (brink, any) = (r.pick(&BRINKS), depth(r, most));
    let h = r.pick(&[brink, any]);
    let cell = (0, h, discharge(r, h, fastest), 3 * h);
    fresh(
        cell_length(r),
        [End { kind: OPEN, ..WALL }; 2],
        &vec![cell; n],
    )
}

/// A reach of any depths and speeds, over a bed with steps or without.
fn uneven(r: &mut Random, n: usize, most: u64, fastest: u64) -> Record {
    let sill = r.pick(&[0, 20, 3_000, 2_000_000]);
    let cells: Vec<_> = (0..n)
        .map(|_| {
            let h = depth(r, most);
            let q = discharge(r, h, fastest);
            (r.between(-sill, sill), h, q, r.below(500_001) * h)
        })
        .collect();
    let boundaries = kinds(r).map(|kind| {
        let mut boundary = end_of_kind(r, kind);
        if kind == FED {
            boundary.depth = depth(r, most).max(1);
            boundary.discharge = discharge(r, boundary.depth, fastest);
        }
        boundary
    });
    fresh(cell_length(r), boundaries, &cells)
}

/// Deep water that rushes against a sill with as much behind it, to either side; an outlet draws what comes in. The push is the greatest there is.
fn rushing(r: &mut Random) -> Record {
    let (h, u) = (DEEPEST - r.below(20_000), FASTEST - r.below(100));
    let q = (u * h) as i64;
    let way = r.pick(&[1, -1]);
    let behind = End {
        kind: FED,
        depth: h,
        discharge: way * q,
        ..WALL
    };
    let (mut boundaries, mut cells) = ([behind, WALL], [(0, h, way * q, 0), (5_000_000, 0, 0, 0)]);
    if way < 0 {
        boundaries.reverse();
        cells.reverse();
    }
    let mut record = fresh(LEAST_X, boundaries, &cells);
    let want = 1_920_000 + r.below(100_000);
    record.outlets = vec![Outlet::new(u64::from(way < 0), want)];
    record
}

fn cell_length(r: &mut Random) -> u64 {
    let any = LEAST_X + r.below(MOST_X - LEAST_X + 1);
    r.pick(&[LEAST_X, 1_000, MOST_X, any, any / 20 + LEAST_X])
}

/// Any reach, half of them with outlets; now and then brimful, or with a full ledger.
fn reach(r: &mut Random) -> Record {
    let few = 1 + r.below(6) as usize;
    let n = match r.below(200) {
        0 => MOST_CELLS,
        1..=4 => cell_count(r),
        _ => r.pick(&[1, few, few]),
    };
    let most = r.pick(&[12_000, 20_000, 40_000, 300_000, DEEPEST, DEEPEST]);
    let fastest = r.pick(&[0, 30, 1_500, FASTEST, FASTEST]);
    let mut record = match r.below(16) {
        0..=3 => even(r, n, most, fastest),
        // with carried water
        4 | 5 => record(r, n),
        6 => return rushing(r),
        _ => uneven(r, n, most, fastest),
    };
    if r.one_in(2) {
        lend_outlets(r, &mut record, true);
    }
    match r.below(12) {
        0 => brim(r, &mut record),
        1 => fill_ledger(&mut record),
        _ => (),
    }
    record
}

/// Mostly the greatest step; less, a little or far too long, and out of range.
fn time(r: &mut Random, most: u64) -> u64 {
    match r.below(20) {
        0 => most + 1,
        1 => most + r.below(MOST_T + 1 - most),
        2 => r.pick(&[0, MOST_T + 1, u64::MAX]),
        3 => 1,
        4..=8 => 1 + r.below(most),
        _ => most,
    }
}

/// What crosses at interfaces 0..n of a sound record.
fn crossings(record: &Record, t: u64) -> Vec<Crossing> {
    let c = &record.columns;
    let cells = (0..c.bed.len()).map(|i| Water::new(c.bed[i], c.depth[i], c.discharge[i]));
    let mut waters: Vec<Water> = cells.collect();
    let [left, right] = [waters[0], waters[waters.len() - 1]];
    let beyond = |boundary: &End, cell: Water| match boundary.kind {
        FED => Water::new(cell.bed, boundary.depth, boundary.discharge),
        OPEN => cell,
        _ => Water {
            speed: -cell.speed,
            ..cell
        },
    };
    waters.insert(0, beyond(&record.ends[0], left));
    waters.push(beyond(&record.ends[1], right));
    (waters.windows(2))
        .map(|pair| interface(t, record.x, pair[0], pair[1]))
        .collect()
}

/// A cell in an accepted step of t.
struct Cell {
    old_depth: u64,
    old_discharge: i64,
    depth: u64,
    discharge: i64,
    /// the discharge after the push
    pushed: i64,
    /// what its outlets drew
    drawn: u64,
}

/// The cells of a record before and after an accepted step of t.
fn cells(before: &Record, after: &Record, t: u64) -> Vec<Cell> {
    let (old, new) = (&before.columns, &after.columns);
    let drawn = |i: usize| {
        let outlets = before.outlets.iter().zip(&after.outlets);
        let here = outlets.filter(|(o, _)| o.is_at(i));
        here.map(|(old, new)| new.water - old.water).sum()
    };
    (crossings(before, t).windows(2).enumerate())
        .map(|(i, pair)| Cell {
            old_depth: old.depth[i],
            old_discharge: old.discharge[i],
            depth: new.depth[i],
            discharge: new.discharge[i],
            pushed: old.discharge[i] + pair[0].push - pair[1].push + pair[1].still_left
                - pair[0].still_right,
            drawn: drawn(i),
        })
        .collect()
}

/// Whole centimetres of a depth.
fn k(depth: u64) -> usize {
    (depth / 10_000) as usize
}

impl Cell {
    /// By the paper's words and wide numbers, what friction leaves of the push, before the cut; and things that a cell can show.
    fn slowed(&self, t: u64, f: u64) -> (i128, [(&'static str, bool); 18]) {
        let u = i128::from(speed(self.old_depth, self.old_discharge));
        let d = i128::from(f * f * ROOTS[k(self.depth)]);
        let e = 45_518 * i128::from(t) * u.abs() / 1_000_000;
        let pushed = i128::from(self.pushed);
        // the size, cut down, with its sign put back
        let slow = |q: i128| match d {
            0 => 0,
            _ => q.abs() * d / (d + e) * q.signum(),
        };
        let most = i128::from(FASTEST * self.depth);
        let left = slow(pushed);
        let rest = d > 0 && pushed * d % (d + e) != 0;
        let marks = [
            ("no D", d == 0 && pushed != 0),
            ("no D, at rest before", d == 0 && pushed != 0 && u == 0),
            ("9,999", self.depth == BRINKS[0] && pushed != 0),
            ("10,000", self.depth == BRINKS[1] && pushed != 0),
            ("19,999", self.depth == BRINKS[2] && pushed != 0),
            ("20,000", self.depth == BRINKS[3] && pushed != 0),
            ("deepest", self.depth == DEEPEST && pushed != 0),
            ("no E", d > 0 && e == 0 && pushed != 0),
            ("slowed", d > 0 && left.abs() < pushed.abs()),
            ("rounded, rightwards", rest && pushed > 0),
            ("rounded, leftwards", rest && pushed < 0),
            ("turned by the push", d > 0 && u * pushed < 0),
            ("product beyond 63 bits", (pushed * d).abs() >= 1 << 63),
            ("cut after friction", d > 0 && e > 0 && left.abs() > most),
            (
                "no cut after friction",
                d > 0 && pushed.abs() > most && left.abs() <= most,
            ),
            (
                "cut first would differ",
                d > 0 && left.clamp(-most, most) != slow(pushed.clamp(-most, most)),
            ),
            (
                "another k by the flow",
                d > 0 && k(self.old_depth) != k(self.depth),
            ),
            (
                "another k by drawing",
                d > 0 && k(self.depth + self.drawn) != k(self.depth),
            ),
        ];
        (left, marks)
    }
}

/// What the steps came upon.
#[derive(Default)]
struct Seen {
    steps: u64,
    /// by what the coefficient is and the number, 0 for accepted
    numbers: BTreeMap<(&'static str, u32), u64>,
    /// steps that 17 stopped, by the number that they would have without friction
    instead: BTreeMap<u32, u64>,
    /// steps with friction that 12 stopped, of a cell deeper than the list of roots goes
    past_the_list: u64,
    /// of accepted steps with friction: how many had outlets that drew, had a transport first, and the cells that showed each mark
    drew: u64,
    transported: u64,
    marks: Vec<(&'static str, u64)>,
    coefficients: BTreeSet<u64>,
    roots: BTreeSet<usize>,
    times: BTreeSet<u64>,
    cell_lengths: BTreeSet<u64>,
    lengths: BTreeSet<usize>,
}

impl Seen {
    /// A step on both, noted.
    fn step(&mut self, record: &mut Record, t: u64, f: u64) {
        let before = record.clone();
        let answer = same(Call::Step(t, f), record);
        let kind = match f {
            0 => "none",
            _ if allowed(f) => "friction",
            _ => "another",
        };
        self.steps += 1;
        *self.numbers.entry((kind, answer.refusal)).or_default() += 1;
        match (kind, answer.refusal) {
            ("friction", 0) => {
                self.transported += u64::from(answer.transported);
                self.slowed(&before, record, t, f);
            }
            ("friction", 12) if before.outlets.is_empty() => {
                self.past_the_list += u64::from(passes_the_list(&before, t));
            }
            ("another", 17) => {
                let without = Call::Step(t, 0).ours(&mut before.clone());
                *self.instead.entry(without.refusal).or_default() += 1;
            }
            _ => (),
        }
    }

    /// An accepted step with friction, each discharge worked out again.
    fn slowed(&mut self, before: &Record, after: &Record, t: u64, f: u64) {
        let mut drew = false;
        for cell in cells(before, after, t) {
            let (left, marks) = cell.slowed(t, f);
            let most = i128::from(FASTEST * cell.depth);
            let expected = left.clamp(-most, most);
            assert_eq!(i128::from(cell.discharge), expected, "{f} {t} {before:?}");
            self.marks.resize(marks.len(), ("", 0));
            for (seen, (mark, shown)) in self.marks.iter_mut().zip(marks) {
                *seen = (mark, seen.1 + u64::from(shown));
            }
            self.roots.insert(k(cell.depth));
            drew |= cell.drawn > 0;
        }
        self.drew += u64::from(drew);
        self.coefficients.insert(f);
        self.times.insert(t);
        self.cell_lengths.insert(before.x);
        self.lengths.insert(before.columns.bed.len());
    }

    /// Each of these numbers came of such a coefficient at least so often.
    fn at_least(&self, times: u64, kind: &'static str, numbers: &[u32]) {
        for &number in numbers {
            let seen = self.numbers.get(&(kind, number));
            assert!(seen >= Some(&times), "{kind} {number}: {:?}", self.numbers);
        }
    }
}

/// A cell without outlets would be as deep as 401 centimetres or more.
fn passes_the_list(before: &Record, t: u64) -> bool {
    let crossings = crossings(before, t);
    let depths = before.columns.depth.iter().zip(crossings.windows(2));
    depths
        .map(|(&h, pair)| h as i64 + pair[0].water - pair[1].water)
        .any(|depth| depth as usize / 10_000 >= ROOTS.len())
}

/// 300,000 steps, up to eight in a row on a record, and everything that they must have come upon.
#[test]
fn steps_with_friction_agree() {
    let mut r = Random::new(113);
    let mut seen = Seen::default();
    while seen.steps < STEPS {
        let mut record = reach(&mut r);
        for _ in 0..(1 + r.below(8)).min(STEPS - seen.steps) {
            let t = time(&mut r, greatest(&record));
            seen.step(&mut record, t, strickler(&mut r));
        }
    }
    seen.at_least(120_000, "friction", &[0]);
    seen.at_least(1_000, "friction", &[10, 11, 12, 13]);
    seen.at_least(25_000, "none", &[0]);
    seen.at_least(20_000, "another", &[17]);
    seen.at_least(1_000, "another", &[10]);
    assert_eq!(seen.numbers.len(), 12, "{:?}", seen.numbers);
    for number in [0, 11, 12, 13] {
        let times = seen.instead.get(&number);
        assert!(times >= Some(&500), "{number}: {:?}", seen.instead);
    }
    assert!(seen.past_the_list >= 500, "{}", seen.past_the_list);
    assert!(seen.drew >= 20_000, "{}", seen.drew);
    assert!(seen.transported >= 10_000, "{}", seen.transported);
    assert!(seen.marks.iter().all(|m| m.1 >= 500), "{:?}", seen.marks);
    assert!(seen.coefficients.iter().copied().eq(10..=90));
    assert_eq!(seen.roots.len(), ROOTS.len());
    assert!(seen.times.contains(&1) && seen.times.contains(&MOST_T));
    assert!(seen.times.len() >= 900, "{}", seen.times.len());
    for x in [LEAST_X, MOST_X] {
        assert!(seen.cell_lengths.contains(&x));
    }
    assert!(seen.lengths.contains(&1) && seen.lengths.contains(&MOST_CELLS));
}

/// The record after a step of the C function that was accepted.
fn stepped(record: &Record, t: u64, f: u64) -> (Record, bool) {
    let mut after = record.clone();
    let answer = same(Call::Step(t, f), &mut after);
    assert_eq!(answer.refusal, 0, "{f} {t} {record:?}");
    (after, answer.transported)
}

/// A reach and a time step of it that is accepted.
fn accepted(r: &mut Random) -> (Record, u64) {
    loop {
        let record = reach(r);
        let most = greatest(&record);
        let any = 1 + r.below(most);
        let t = r.pick(&[most, any]);
        if Call::Step(t, 0).ours(&mut record.clone()).refusal == 0 {
            return (record, t);
        }
    }
}

/// With a coefficient of 0 the discharge is what was pushed, cut, and nothing else; all columns are the second implementation's.
#[test]
fn no_friction_leaves_the_push() {
    let mut r = Random::new(127);
    let (mut moved, mut cut) = (0, 0);
    for _ in 0..30_000 {
        let (record, t) = accepted(&mut r);
        let (after, _) = stepped(&record, t, 0);
        for cell in cells(&record, &after, t) {
            let most = (FASTEST * cell.depth) as i64;
            assert_eq!(
                cell.discharge,
                cell.pushed.clamp(-most, most),
                "{t} {record:?}"
            );
            moved += u64::from(cell.discharge != cell.old_discharge);
            cut += u64::from(cell.discharge != cell.pushed);
        }
    }
    assert!(moved >= 50_000 && cut >= 1_000, "{moved} {cut}");
}

/// Friction changes the discharge alone: its size is no larger than without, and the larger the coefficient the larger, and its sign does not turn.
#[test]
fn friction_changes_the_discharge_alone() {
    let mut r = Random::new(131);
    let (mut less, mut still) = (0, 0);
    for _ in 0..15_000 {
        let (record, t) = accepted(&mut r);
        let (without, transported) = stepped(&record, t, 0);
        // from the roughest bed to none
        let mut rougher = vec![0; record.columns.bed.len()];
        let any = 10 + r.below(81);
        for f in [10, any, 90, 0] {
            let (after, as_well) = stepped(&record, t, f);
            assert_eq!(as_well, transported);
            let discharge = after.columns.discharge.clone();
            let free = without.columns.discharge.iter();
            for ((&q, &free), &least) in discharge.iter().zip(free).zip(&rougher) {
                assert!(
                    least <= q.abs() && q.abs() <= free.abs(),
                    "{f} {t} {record:?}"
                );
                assert!(q == 0 || q.signum() == free.signum(), "{f} {t} {record:?}");
                less += u64::from(q.abs() < free.abs());
                still += u64::from(q == 0 && free != 0);
            }
            rougher = discharge.iter().map(|q| q.abs()).collect();
            let mut rest = after;
            rest.columns
                .discharge
                .clone_from(&without.columns.discharge);
            assert_eq!(rest, without, "{f} {t} {record:?}");
        }
    }
    assert!(less >= 50_000 && still >= 10_000, "{less} {still}");
}

/// By hand. A cell between open boundaries flows on: its depth changes by its outlet alone, its discharge by friction and the cut alone.
#[test]
fn figures_by_hand() {
    let open = End { kind: OPEN, ..WALL };
    for way in [1, -1] {
        let found = |x: u64, (h, q): (u64, i64), want: u64, t: u64, f: u64| {
            let mut record = fresh(x, [open; 2], &[(0, h, way * q, 0)]);
            record.outlets = vec![Outlet::new(0, want)];
            let (after, _) = stepped(&record, t, f);
            (after.columns.depth[0], way * after.columns.discharge[0])
        };
        // k 100, r 4,641, D = 900 * 4,641, E = floor(9,103.6)
        let metre = (1_000_000, 2_000_000_000);
        assert_eq!(found(1_000, metre, 0, 100, 0), metre);
        assert_eq!(found(1_000, metre, 0, 100, 30), (1_000_000, 1_995_650_743));
        // below a centimetre D is 0; from there r is 10, D = 1,000 or 81,000, E = floor(3,536.7)
        let (film, centimetre) = ((9_999, 7_777_777), (10_000, 7_777_777));
        assert_eq!(found(1_000, film, 0, 100, 0), film);
        assert_eq!([10, 90].map(|f| found(1_000, film, 0, 100, f).1), [0; 2]);
        assert_eq!(found(1_000, centimetre, 0, 100, 0), centimetre);
        assert_eq!(
            [10, 90].map(|f| found(1_000, centimetre, 0, 100, f).1),
            [1_714_677, 7_452_445]
        );
        // drawing comes first: k is 4, and then 0
        let drawn = (100_000, 10_000_000);
        assert_eq!(found(100_000, drawn, 60_000, 100, 30), (40_000, 9_920_391));
        assert_eq!(found(100_000, drawn, 90_001, 100, 30), (9_999, 0));
        // the cut comes last: E = floor(364.1), 787,263,820 are left with k 2, and 784,725,136 of 792,000,000 with k 9
        let fast = (100_000, 800_000_000);
        assert_eq!(found(100_000, fast, 80_000, 1, 30), (20_000, 160_000_000));
        assert_eq!(found(100_000, fast, 1_000, 1, 10), (99_000, 784_725_136));
    }
    // E is 0 by the old speed: water at rest is pushed as without friction
    for f in [0, 10, 30, 90] {
        let (after, _) = stepped(&two_cells(), 100, f);
        assert_eq!(after.columns.depth, [907_132, 192_868]);
        assert_eq!(after.columns.discharge, [242_795_920; 2]);
    }
}

/// All coefficients that a step does not take, as far as small numbers and powers of two go; some would be sound if they were cut to fewer bits.
fn others() -> Vec<u64> {
    let powers = (8..64).map(|bit| 1 << bit);
    let wide = powers.flat_map(|power: u64| [power - 1, power, power + 1, power + 30, power + 90]);
    (1..10)
        .chain(91..1_200)
        .chain(wide)
        .chain([u64::MAX])
        .collect()
}

/// The number of a step, the same from both.
fn number(record: &Record, t: u64, f: u64) -> u32 {
    same(Call::Step(t, f), &mut record.clone()).refusal
}

/// A cell as deep as may be before a wall: 452,144 flow in at 2,000 mm/s in 100 ms, and an outlet draws so much.
fn filling(want: u64) -> Record {
    let fed = End {
        kind: FED,
        depth: DEEPEST,
        discharge: 2_000 * DEEPEST as i64,
        ..WALL
    };
    let mut record = fresh(1_000, [fed, WALL], &[(0, DEEPEST, 0, 0)]);
    record.outlets = vec![Outlet::new(0, want)];
    record
}

#[test]
fn any_other_coefficient_is_17() {
    for record in [two_cells(), filling(452_144)] {
        for f in (10..=90).chain([0]) {
            assert_eq!(number(&record, 100, f), 0, "{f}");
        }
        for f in others() {
            assert_eq!(number(&record, 100, f), 17, "{f}");
        }
    }
}

/// t out of range, water too fast, too deep and a full ledger, alone and all at once: 17 comes after 10 and before 11, 12 and 13.
#[test]
fn ground_17_comes_after_10_and_before_11() {
    let sound = filling(452_144);
    let mut full = sound.clone();
    full.book.left.water_in = MOST_TOTAL;
    let mut all = filling(0);
    all.book = full.book;
    // |u|+a is 9,671 at the boundary
    let broken = [
        (11, &sound, 104),
        (12, &filling(452_143), 100),
        (13, &full, 100),
        (11, &all, 104),
        (12, &all, 100),
    ];
    for (ground, record, t) in broken {
        for f in (10..=90).chain([0]) {
            assert_eq!(number(record, t, f), ground, "{f}");
        }
        for f in others() {
            assert_eq!(number(record, t, f), 17, "{f} beside {ground}");
        }
    }
    for record in [&sound, &all] {
        for t in [0, 1_001, 1 << 32, (1 << 32) + 100, u64::MAX] {
            for f in others().into_iter().chain([0, 30]) {
                assert_eq!(number(record, t, f), 10, "{t} {f}");
            }
        }
    }
}

/// What is wrong with the record comes before 17.
#[test]
fn ground_17_comes_after_those_of_the_record() {
    let mut r = Random::new(137);
    for _ in 0..300 {
        let record = reach(&mut r);
        for ground in GROUNDS {
            let mut damaged = record.clone();
            damage_record(&mut r, &mut damaged, ground);
            let f = r.pick(&[1, 9, 91, 1 << 32, u64::MAX]);
            let t = r.pick(&[0, 1, 1_000, 1_001]);
            assert_eq!(number(&damaged, t, f), ground, "{f} {t} {damaged:?}");
        }
    }
}
