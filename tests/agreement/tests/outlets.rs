//! Outlets: all six calls against the second implementation, with 0 to 32 outlets, sound and damaged lists: the answer, every column and every outlet
//! entry by entry, after refusals as well. Then lists of calls in which the wants change, and a run by hand.

use agreement::both::{
    allowed_strickler, broken, greatest, same, same_opening_with, same_writing, two_cells, Call,
    Outcome, GROUNDS,
};
use agreement::calls;
use agreement::sheets::{damages, lent, Opening};
use reference::outlet::{drawn_at, list_sound, MOST_OUTLETS};
use reference::random::{
    cell_count, choose_wants, damage_end, damage_list, damage_record, end, kinds, lend_outlets,
    odd_outlets, outlets_for_opening, record_of, strickler, totals_mut, Random, Record,
    COLUMN_ORDERS,
};
use reference::record::{DEEPEST, FASTEST, MOST_CELLS, MOST_TOTAL};
use reference::sheet::sheet_length;
use reference::step::available;
use reference::{Book, Outlet};
use std::collections::{BTreeMap, BTreeSet};

const NAMES: [&str; 5] = [
    "step",
    "transport",
    "setting of boundaries",
    "greatest step",
    "write",
];
const OPENING: &str = "opening";

/// What the calls came upon.
#[derive(Default)]
struct Seen {
    calls: u64,
    /// by call and number, 0 for accepted
    numbers: BTreeMap<(&'static str, u32), u64>,
    /// calls on a list that breaks 16, by what else stopped them
    with_16: BTreeMap<(&'static str, u32), u64>,
    /// outlets and cells, of accepted steps
    outlets: BTreeSet<usize>,
    lengths: BTreeSet<usize>,
    /// accepted steps that showed each of `marks`, and totals that 13 stopped
    marks: BTreeMap<&'static str, u64>,
}

impl Seen {
    fn note(&mut self, name: &'static str, number: u32) {
        self.calls += 1;
        *self.numbers.entry((name, number)).or_default() += 1;
    }

    fn mark(&mut self, mark: &'static str, shown: bool) {
        *self.marks.entry(mark).or_default() += u64::from(shown);
    }

    /// Each of these numbers came out of this call at least so often.
    fn at_least(&self, times: u64, name: &'static str, numbers: &[u32]) {
        for &number in numbers {
            let seen = self.numbers.get(&(name, number));
            assert!(seen >= Some(&times), "{name} {number}: {:?}", self.numbers);
        }
    }
}

/// What each outlet drew in a step.
fn given(before: &Record, after: &Record) -> Vec<u64> {
    let outlets = after.outlets.iter().zip(&before.outlets);
    outlets.map(|(new, old)| new.water - old.water).collect()
}

/// What outlets ask of one cell: what it can give, their wants, and what they had of it.
struct Asked {
    can_give: u64,
    wants: Vec<u64>,
    given: Vec<u64>,
}

impl Asked {
    fn sum(&self) -> u64 {
        self.wants.iter().sum()
    }

    fn rationed(&self) -> bool {
        self.sum() > self.can_give
    }

    /// A unit left over by the floors went to someone.
    fn unit_left(&self) -> bool {
        let floors = self.wants.iter().map(|w| self.can_give * w / self.sum());
        self.rationed() && self.given.iter().zip(floors).any(|(&g, f)| g > f)
    }
}

/// The cells with outlets, in a step of t that was accepted.
fn asked(before: &Record, after: &Record, t: u64) -> Vec<Asked> {
    let can_give = available(&before.columns, before.x, &before.ends, t);
    let given = given(before, after);
    let mut cells: BTreeMap<usize, Asked> = BTreeMap::new();
    for (outlet, given) in before.outlets.iter().zip(given) {
        let asked = cells.entry(outlet.place()).or_insert(Asked {
            can_give: can_give[outlet.place()],
            wants: vec![],
            given: vec![],
        });
        asked.wants.push(outlet.want);
        asked.given.push(given);
    }
    cells.into_values().collect()
}

/// The same step by outlets that want nothing makes no transport; nor does friction make one.
fn transported_by_drawing(before: &Record, t: u64) -> bool {
    let mut closed = before.clone();
    closed.outlets.iter_mut().for_each(|o| o.want = 0);
    !Call::Step(t, 0).theirs(&mut closed).transported
}

/// Things that an accepted step with outlets can show.
fn marks(before: &Record, after: &Record, t: u64, came: &Outcome) -> Vec<(&'static str, bool)> {
    let asked = asked(before, after, t);
    let any = |shows: &dyn Fn(&Asked) -> bool| asked.iter().any(shows);
    let (old, new) = (&before.columns, &after.columns);
    let cells: Vec<usize> = before.outlets.iter().map(Outlet::place).collect();
    let drawn = |&i: &usize| drawn_at(&after.outlets, i) > 0;
    let held = |&i: &usize| new.discharge[i].unsigned_abs() == FASTEST * new.depth[i];
    vec![
        ("fits", any(&|a| a.sum() > 0 && !a.rationed())),
        (
            "fits to the unit",
            any(&|a| a.sum() > 0 && a.sum() == a.can_give),
        ),
        (
            "one unit too many",
            any(&|a| a.can_give > 0 && a.sum() == a.can_give + 1),
        ),
        ("rationed", any(&|a| a.can_give > 0 && a.rationed())),
        ("unit left", any(&Asked::unit_left)),
        (
            "no want beside it",
            any(&|a| a.unit_left() && a.wants.contains(&0)),
        ),
        (
            "last unit behind the first",
            any(&|a| a.unit_left() && a.wants[0] == 0),
        ),
        ("nothing to give", any(&|a| a.can_give == 0 && a.sum() > 0)),
        ("many at one cell", any(&|a| a.wants.len() == MOST_OUTLETS)),
        (
            "a cell between",
            cells.windows(3).any(|c| c[0] == c[2] && c[0] != c[1]),
        ),
        (
            "drained",
            cells.iter().any(|&i| old.depth[i] > 0 && new.depth[i] == 0),
        ),
        (
            "cut by drawing",
            cells.iter().filter(|i| drawn(i)).any(held),
        ),
        ("drawn before", before.outlets.iter().any(|o| o.drawn > 0)),
        ("kept", !came.transported),
        ("transported", came.transported),
        (
            "transported by drawing",
            came.transported && transported_by_drawing(before, t),
        ),
    ]
}

/// No outlet has more than it wants, and a cell gives what is wanted or all that it can.
fn fair(before: &Record, after: &Record, t: u64) {
    for a in asked(before, after, t) {
        let had: u64 = a.given.iter().sum();
        assert_eq!(had, a.sum().min(a.can_give), "{before:?}");
        assert!(
            a.given.iter().zip(&a.wants).all(|(had, want)| had <= want),
            "{before:?}"
        );
    }
}

/// What a step is given, and the bytes that a write has room for.
#[derive(Clone, Copy)]
struct Arguments {
    t: u64,
    strickler: u64,
    room: usize,
}

/// All five calls on one record, which stays.
fn five(r: &mut Random, record: &Record, given: Arguments, seen: &mut Seen) -> [u32; 5] {
    let Arguments { t, strickler, room } = given;
    let new = [end(r), end(r)];
    let calls = [
        Call::Step(t, strickler),
        Call::Transport,
        Call::SetBoundaries(new),
        Call::Greatest,
    ];
    let mut after = calls.map(|_| record.clone());
    let mut numbers = [0; 5];
    for (k, call) in calls.into_iter().enumerate() {
        let came = same(call, &mut after[k]);
        numbers[k] = came.refusal;
        if k == 0 && came.refusal == 0 {
            seen.outlets.insert(record.outlets.len());
            seen.lengths.insert(record.columns.bed.len());
            fair(record, &after[0], t);
            for (mark, shown) in marks(record, &after[0], t, &came) {
                seen.mark(mark, shown);
            }
        }
    }
    numbers[4] = same_writing(record, &vec![0xA5; room]).0;
    for (name, number) in NAMES.into_iter().zip(numbers) {
        seen.note(name, number);
    }
    numbers
}

/// The same calls, then all of them with a list that breaks 16 as well: 4 to 7 come before it, all others after it.
fn five_with_16(r: &mut Random, record: &Record, given: Arguments, seen: &mut Seen) -> [u32; 5] {
    let numbers = five(r, record, given, seen);
    if !list_sound(&record.outlets, MOST_CELLS) {
        return numbers;
    }
    let mut bad = record.clone();
    // where the bed column is empty, 4 comes first
    damage_list(r, &mut bad.outlets, record.columns.bed.len().max(1));
    let expected = numbers.map(|n| if (4..=7).contains(&n) { n } else { 16 });
    assert_eq!(five(r, &bad, given, seen), expected, "{record:?}");
    for (name, number) in NAMES.into_iter().zip(numbers) {
        *seen.with_16.entry((name, number)).or_default() += 1;
    }
    numbers
}

/// A sound record of any length with 0 to 32 outlets; most carry water, and most outlets have drawn.
fn any_record(r: &mut Random) -> Record {
    let (n, kinds) = (cell_count(r), kinds(r));
    let (carrying, drawing) = r.pick(&[(true, true), (true, true), (false, true), (false, false)]);
    let mut record = record_of(r, n, kinds, carrying);
    lend_outlets(r, &mut record, drawing);
    record
}

/// t about the greatest step, small and out of range, any coefficient, and a room for the sheet that is mostly enough.
fn arguments(r: &mut Random, record: &Record) -> Arguments {
    let most = greatest(record);
    let any = 1 + r.below(most);
    let t = r.pick(&[
        most,
        most,
        most,
        any,
        any,
        most + 1,
        1_000,
        0,
        1_001,
        most + (1 << 32),
    ]);
    let sheet = sheet_length(record.columns.bed.len());
    Arguments {
        t,
        strickler: strickler(r),
        room: r.pick(&[sheet, sheet + 9, sheet - 1, 80]),
    }
}

/// Totals that a step fills to the last unit, then each total of an outlet that it adds to with one unit less room.
fn to_the_limit(r: &mut Random, record: &Record, seen: &mut Seen) {
    let (t, strickler) = (greatest(record), allowed_strickler(r));
    let step = Call::Step(t, strickler);
    let mut empty = record.clone();
    empty.book = Book::default();
    for o in &mut empty.outlets {
        (o.water, o.nutrient) = (0, 0);
    }
    let mut gained = empty.clone();
    let came = same(step, &mut gained);
    if came.refusal != 0 {
        return;
    }
    let mut full = empty.clone();
    let gains = totals_mut(&mut gained.book).map(|gain| MOST_TOTAL - *gain);
    for (total, room) in totals_mut(&mut full.book).into_iter().zip(gains) {
        *total = room;
    }
    for (o, gain) in full.outlets.iter_mut().zip(&gained.outlets) {
        (o.water, o.nutrient) = (MOST_TOTAL - gain.water, MOST_TOTAL - gain.nutrient);
    }
    let room = sheet_length(record.columns.bed.len());
    let given = Arguments { t, strickler, room };
    let mut filled = full.clone();
    assert_eq!(same(step, &mut filled).refusal, 0, "{full:?}");
    assert!(filled
        .outlets
        .iter()
        .all(|o| (o.water, o.nutrient) == (MOST_TOTAL, MOST_TOTAL)));
    for k in 0..full.outlets.len() {
        let Outlet {
            water, nutrient, ..
        } = gained.outlets[k];
        let mut over = full.clone();
        if water > 0 && r.one_in(2) {
            over.outlets[k].water += 1;
            seen.mark("13 by water", true);
        } else if nutrient > 0 {
            over.outlets[k].nutrient += 1;
            seen.mark("13 by mass in a step", true);
        } else {
            continue;
        }
        assert_eq!(five(r, &over, given, seen)[0], 13, "{over:?}");
    }
    to_the_limit_of_mass(r, record, seen);
}

/// The same of a transport and a setting of boundaries, which add mass alone.
fn to_the_limit_of_mass(r: &mut Random, record: &Record, seen: &mut Seen) {
    let mut gained = record.clone();
    gained.book = Book::default();
    gained.outlets.iter_mut().for_each(|o| o.nutrient = 0);
    let mut over = gained.clone();
    assert_eq!(same(Call::Transport, &mut gained).refusal, 0);
    for (o, gain) in over.outlets.iter_mut().zip(&gained.outlets) {
        o.nutrient = MOST_TOTAL - gain.nutrient;
    }
    for call in [Call::Transport, Call::SetBoundaries([end(r), end(r)])] {
        let mut filled = over.clone();
        assert_eq!(same(call, &mut filled).refusal, 0);
        assert!(filled.outlets.iter().all(|o| o.nutrient == MOST_TOTAL));
    }
    let gains = gained.outlets.iter().map(|o| o.nutrient);
    let Some(k) = gains
        .enumerate()
        .filter(|(_, gain)| *gain > 0)
        .map(|(k, _)| k)
        .max()
    else {
        return;
    };
    over.outlets[k].nutrient += 1;
    seen.mark("13 by mass in a transport", true);
    let given = Arguments {
        t: 0,
        strickler: strickler(r),
        room: sheet_length(record.columns.bed.len()),
    };
    let numbers = five(r, &over, given, seen);
    assert_eq!(numbers[..3], [10, 13, 13], "{over:?}");
}

/// A record with other wants at each time step, with totals at their limits, with one thing changed in its list, and broken in each way; each of
/// these with a list that breaks 16 too.
fn around(r: &mut Random, record: &mut Record, seen: &mut Seen) {
    for _ in 0..10 {
        let given = arguments(r, record);
        let most = greatest(record);
        choose_wants(r, record, given.t.clamp(1, most));
        five_with_16(r, record, given, seen);
    }
    to_the_limit(r, record, seen);
    let odd = odd_outlets(r, record);
    for _ in 0..4 {
        let (ground, odd) = &odd[r.below(odd.len() as u64) as usize];
        let given = arguments(r, record);
        let numbers = five(r, odd, given, seen);
        if *ground != 0 {
            assert_eq!(numbers, [*ground; 5], "{odd:?}");
        }
    }
    for b in broken(r, record) {
        let given = arguments(r, record);
        let numbers = five_with_16(r, &b.record, given, seen);
        assert_eq!(numbers, [b.ground; 5], "{:?}", b.record);
    }
}

/// The number of an opening with this list; what is opened has the list, with nothing drawn.
fn open(opening: &Opening, list: &[Outlet], seen: &mut Seen) -> u32 {
    let number = match same_opening_with(&opening.sheet, &opening.lent, list) {
        Ok(opened) => {
            let ready = list.iter().map(|o| Outlet::new(o.cell, o.want));
            let expected = Record {
                outlets: ready.collect(),
                ..opening.record.clone()
            };
            assert_eq!(opened, expected);
            0
        }
        Err(ground) => ground,
    };
    seen.note(OPENING, number);
    number
}

/// Openings with a list that is sound, odd or damaged, of sheets and columns that are sound or damaged.
fn openings(r: &mut Random, seen: &mut Seen) {
    let (n, order) = (cell_count(r), r.pick(&COLUMN_ORDERS));
    let sound = Opening::sound(r, n, order);
    let list = outlets_for_opening(r, &sound.record);
    assert_eq!(open(&sound, &list, seen), 0, "{list:?}");
    let mut bad = list.clone();
    damage_list(r, &mut bad, n);
    assert_eq!(open(&sound, &bad, seen), 16, "{bad:?}");
    let mut settled = sound.record.clone();
    lend_outlets(r, &mut settled, false);
    for (ground, odd) in odd_outlets(r, &settled) {
        // drawn water and totals may be anything
        let expected = if ground == 16 { 16 } else { 0 };
        assert_eq!(
            open(&sound, &odd.outlets, seen),
            expected,
            "{:?}",
            odd.outlets
        );
    }
    for of_ground in damages(r, &sound).chunk_by(|a, b| a.ground == b.ground) {
        let damage = &of_ground[r.below(of_ground.len() as u64) as usize];
        let damaged = sound.damaged(&[damage]);
        for list in [&list, &bad] {
            assert_eq!(open(&damaged, list, seen), damage.ground, "{damage:?}");
        }
        *seen.with_16.entry((OPENING, damage.ground)).or_default() += 1;
    }
}

/// At least 300,000 calls, and everything that they must have come upon.
#[test]
fn single_calls_with_outlets_agree() {
    let mut r = Random::new(101);
    let mut seen = Seen::default();
    while seen.calls < 1_000_000 {
        let mut record = any_record(&mut r);
        around(&mut r, &mut record, &mut seen);
        openings(&mut r, &mut seen);
    }
    let of_record = GROUNDS.to_vec();
    let with = |more: &[u32]| [&of_record, more].concat();
    seen.at_least(800, "step", &with(&[0, 10, 17, 11, 12, 13]));
    seen.at_least(800, "transport", &with(&[0, 13]));
    seen.at_least(800, "setting of boundaries", &with(&[0, 13]));
    seen.at_least(800, "greatest step", &with(&[0]));
    seen.at_least(800, "write", &with(&[0, 14, 15]));
    seen.at_least(800, OPENING, &[0, 1, 2, 3, 4, 5, 6, 7, 16]);
    for (name, grounds) in [
        ("step", with(&[0, 10, 17, 11, 12, 13])),
        ("transport", with(&[0, 13])),
        ("setting of boundaries", with(&[0, 13])),
        ("greatest step", with(&[0])),
        ("write", with(&[0, 14, 15])),
        (OPENING, (1..=7).collect()),
    ] {
        for ground in grounds {
            let seen = seen.with_16.get(&(name, ground));
            assert!(seen >= Some(&300), "16 with {ground} in {name}: {seen:?}");
        }
    }
    for (mark, times) in &seen.marks {
        assert!(*times >= 300, "{mark}: {:?}", seen.marks);
    }
    assert_eq!(seen.outlets.len(), MOST_OUTLETS + 1, "{:?}", seen.outlets);
    assert!(seen.lengths.contains(&1) && seen.lengths.len() > 200);
}

/// Water and mass held, less what came in, with what went out and what was drawn: no call on the record changes either.
fn held_and_passed(record: &Record) -> [i128; 2] {
    let c = &record.columns;
    let [mut water, mut mass] =
        [&c.depth, &c.nutrient].map(|column| column.iter().map(|&v| i128::from(v)).sum::<i128>());
    for side in [record.book.left, record.book.right] {
        water += i128::from(side.water_out) - i128::from(side.water_in);
        mass += i128::from(side.nutrient_out) - i128::from(side.nutrient_in);
    }
    for o in &record.outlets {
        water += i128::from(o.water);
        mass += i128::from(o.nutrient);
    }
    [water, mass]
}

/// What the lists came upon beside the numbers of their calls.
#[derive(Default)]
struct Listed {
    seen: Seen,
    changed_wants: u64,
    /// accepted steps that outlets drew in, by whether a transport came first
    drew: BTreeMap<bool, u64>,
    /// numbers of outlets lent to openings in between
    lent: BTreeSet<usize>,
}

impl Listed {
    /// A call on the record as it stands.
    fn call(&mut self, call: Call, record: &mut Record) -> u32 {
        let before = record.clone();
        let came = same(call, record);
        self.seen.note(call.name(), came.refusal);
        assert_eq!(
            held_and_passed(record),
            held_and_passed(&before),
            "{call:?}"
        );
        if let (Call::Step(..), 0) = (call, came.refusal) {
            let drew = given(&before, record).iter().any(|&g| g > 0);
            *self.drew.entry(came.transported).or_default() += u64::from(drew);
        }
        came.refusal
    }

    /// The record is damaged, a call is refused, and the damage is mended.
    fn damaged(&mut self, r: &mut Random, record: &Record) {
        let ground = r.pick(&GROUNDS);
        let mut damaged = record.clone();
        damage_record(r, &mut damaged, ground);
        let step = Call::Step(1, strickler(r));
        let call = r.pick(&[step, Call::Transport, Call::Greatest]);
        assert_eq!(self.call(call, &mut damaged), ground, "{damaged:?}");
    }

    /// A want that is out of range: refused until the caller mends it.
    fn greedy(&mut self, r: &mut Random, record: &mut Record) {
        let k = r.below(record.outlets.len() as u64) as usize;
        let want = record.outlets[k].want;
        record.outlets[k].want = r.pick(&[DEEPEST + 1, want + (1 << 32), u64::MAX]);
        let step = Call::Step(1, strickler(r));
        let call = r.pick(&[step, Call::Transport, Call::Greatest]);
        assert_eq!(self.call(call, record), 16);
        record.outlets[k].want = want;
    }

    /// An opening in between with a list of its own, into the columns as they stand. A refused one leaves the record.
    fn open(&mut self, r: &mut Random, record: &mut Record) {
        let n = record.columns.bed.len();
        let order = r.pick(&COLUMN_ORDERS);
        let mut opening = Opening::sound(r, n, order);
        let mut list = outlets_for_opening(r, &opening.record);
        match r.below(4) {
            0 => damage_list(r, &mut list, n),
            1 => {
                let ways = damages(r, &opening);
                opening = opening.damaged(&[&ways[r.below(ways.len() as u64) as usize]]);
            }
            _ => (),
        }
        let columns = &record.columns;
        match same_opening_with(&opening.sheet, columns, &list) {
            Ok(opened) => {
                self.lent.insert(list.len());
                *record = opened;
                self.seen.note(OPENING, 0);
            }
            Err(ground) => self.seen.note(OPENING, ground),
        }
    }

    fn write(&mut self, r: &mut Random, record: &Record) {
        let sheet = sheet_length(record.columns.bed.len());
        let room = r.pick(&[sheet, sheet + 5, sheet - 1]);
        let number = same_writing(record, &vec![0x5A; room]).0;
        self.seen.note("write", number);
    }

    fn set_boundaries(&mut self, r: &mut Random, record: &mut Record) {
        let mut new = [end(r), end(r)];
        if r.one_in(3) {
            let side = r.below(2) as usize;
            damage_end(r, &mut new[side]);
        }
        self.call(Call::SetBoundaries(new), record);
    }

    /// Mostly the greatest step, often with other wants than before.
    fn step(&mut self, r: &mut Random, record: &mut Record) {
        let most = greatest(record);
        let any = 1 + r.below(most);
        let t = r.pick(&[most, most, most, most, any, most + 1, 0]);
        if r.one_in(2) {
            choose_wants(r, record, t.clamp(1, most));
            self.changed_wants += u64::from(!record.outlets.is_empty());
        }
        self.call(Call::Step(t, strickler(r)), record);
    }

    fn any(&mut self, r: &mut Random, record: &mut Record) {
        match r.below(24) {
            0 => self.open(r, record),
            1 | 2 => self.damaged(r, record),
            3 if !record.outlets.is_empty() => self.greedy(r, record),
            4 | 5 => self.write(r, record),
            6 => self.set_boundaries(r, record),
            7 | 8 => _ = self.call(Call::Transport, record),
            9 => _ = self.call(Call::Greatest, record),
            _ => self.step(r, record),
        }
    }
}

/// Mostly short reaches, now and then the longest.
fn cells(r: &mut Random) -> usize {
    match r.below(60) {
        0 => MOST_CELLS,
        1..=4 => cell_count(r),
        _ => r.between(1, 9) as usize,
    }
}

/// 1,000 lists of 200 calls from an opening on: each call is given the columns and the list as the last one left them, but for the wants.
#[test]
fn lists_of_calls_with_outlets_agree() {
    let mut r = Random::new(103);
    let mut listed = Listed::default();
    for _ in 0..1_000 {
        let (n, order) = (cells(&mut r), r.pick(&COLUMN_ORDERS));
        let first = Opening::sound(&mut r, n, order);
        let list = outlets_for_opening(&mut r, &first.record);
        let opened = same_opening_with(&first.sheet, &lent(n), &list);
        let mut record = opened.expect("a sound sheet opens");
        for _ in 0..200 {
            listed.any(&mut r, &mut record);
        }
    }
    let seen = &listed.seen;
    assert_eq!(seen.calls, 200_000);
    seen.at_least(500, "step", &[0, 4, 5, 6, 7, 8, 9, 10, 11, 16, 17]);
    seen.at_least(5, "step", &[12]);
    seen.at_least(500, "transport", &[0, 4, 5, 6, 7, 8, 9, 16]);
    seen.at_least(500, "setting of boundaries", &[0, 6]);
    seen.at_least(500, "greatest step", &[0, 4, 5, 6, 7, 8, 9, 16]);
    seen.at_least(500, "write", &[0, 14, 15]);
    seen.at_least(500, OPENING, &[0, 16]);
    seen.at_least(20, OPENING, &[1, 2, 3, 5, 6, 7]);
    assert!(listed.changed_wants >= 20_000, "{}", listed.changed_wants);
    assert!(
        listed.drew.values().all(|&times| times >= 5_000),
        "{:?}",
        listed.drew
    );
    assert_eq!(listed.drew.len(), 2);
    assert!(listed.lent.contains(&0) && listed.lent.contains(&MOST_OUTLETS));
}

/// By hand, on the two-cell run of document 01: W is 95,900 in cell 0 and 3,032 in cell 1, towards the wall too, so that the cells can give 808,200 and
/// 93,936, whatever comes in. Of cell 1 the outlets want 2,900,000: 64,783 and 29,152 by the floors, and the unit left goes to the first with a want.
#[test]
fn two_cell_run_with_outlets() {
    let mut record = two_cells();
    record.outlets = [(1, 0), (1, 2_000_000), (0, 300), (1, 900_000)]
        .map(|(cell, want)| Outlet::new(cell, want))
        .to_vec();
    let stepped = calls::step(&mut record, 100, 0);
    assert_eq!((stepped.refusal, stepped.settled), (0, false));
    assert_eq!(stepped.book, Book::default());
    let drawn = |record: &Record| record.outlets.iter().map(|o| o.drawn).collect::<Vec<_>>();
    let water = |record: &Record| record.outlets.iter().map(|o| o.water).collect::<Vec<_>>();
    assert_eq!(drawn(&record), [0, 64_784, 300, 29_152]);
    assert_eq!(water(&record), drawn(&record));
    assert_eq!(record.columns.depth, [906_832, 98_932]);
    assert_eq!(record.columns.carried, [0, 92_868, 0]);
    assert_eq!(same_writing(&record, &[0; 128]).0, 14);
    let transported = calls::transport(&mut record);
    assert_eq!(
        (transported.refusal, transported.book),
        (0, Book::default())
    );
    // of 3,000,000 in 1,000,000: floor(3 * 92,868) to the right, then up to floor(3 * 93,168)
    let mass: Vec<u64> = record.outlets.iter().map(|o| o.nutrient).collect();
    assert_eq!(mass, [0, 0, 900, 0]);
    assert_eq!(drawn(&record), [0; 4]);
    assert_eq!(water(&record), [0, 64_784, 300, 29_152]);
    let c = &record.columns;
    assert_eq!(c.nutrient, [2_720_496, 278_604]);
    assert_eq!(c.base, c.depth);
    assert_eq!(same_writing(&record, &[0; 128]).0, 0);
}

/// Drawn water alone is 14 too, and 14 comes before 15.
#[test]
fn drawn_water_is_not_written() {
    let mut r = Random::new(107);
    let mut seen = 0;
    while seen < 3_000 {
        let (n, kinds) = (cell_count(&mut r), kinds(&mut r));
        let mut record = record_of(&mut r, n, kinds, false);
        lend_outlets(&mut r, &mut record, true);
        let drawn = record.outlets.iter().any(|o| o.drawn > 0);
        let sheet = sheet_length(n);
        for (room, otherwise) in [(sheet, 0), (sheet - 1, 15)] {
            let expected = if drawn { 14 } else { otherwise };
            assert_eq!(
                same_writing(&record, &vec![1; room]).0,
                expected,
                "{record:?}"
            );
        }
        seen += u64::from(drawn);
    }
}
