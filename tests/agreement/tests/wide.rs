//! Numbers at and beyond 2^32 and 2^63 in every argument that has the bits for them: X, t, Strickler's coefficient, boundaries held and given, columns,
//! outlets, ledger and sheet. Cut to fewer bits many of them would be sound. Each call is compared with the second implementation, and its number is
//! the paper's.

use agreement::both::{allowed_strickler, fresh, greatest, same, same_opening};
use agreement::both::{same_opening_with, same_writing, Call, GROUNDS, WALL};
use agreement::sheets::Opening;
use reference::random::{cell_count, end, kinds, lend_outlets, record_of, totals_mut};
use reference::random::{Random, Record, COLUMN_ORDERS};
use reference::record::{BED_LIMIT, DEEPEST, FASTEST, FED, MOST_TOTAL, MOST_X, OPEN, RICHEST};
use reference::sheet::sheet_length;
use reference::step::MOST_T;
use reference::{Columns, End, Outlet};
use std::array::from_fn;
use std::collections::BTreeSet;

/// All that the five calls on a record are given.
#[derive(Clone, Debug)]
struct Given {
    record: Record,
    /// the boundaries to set
    new: [End; 2],
    t: u64,
    /// Strickler's coefficient
    strickler: u64,
}

/// The numbers of step, transport, setting of boundaries, greatest step and write, each the same from both implementations.
fn numbers(given: &Given) -> [u32; 5] {
    let record = &given.record;
    let number = |call| same(call, &mut record.clone()).refusal;
    let output = vec![0xA5; sheet_length(record.columns.bed.len())];
    [
        number(Call::Step(given.t, given.strickler)),
        number(Call::Transport),
        number(Call::SetBoundaries(given.new)),
        number(Call::Greatest),
        same_writing(record, &output).0,
    ]
}

/// A number that a call is given.
#[derive(Clone, Copy, Debug, PartialEq)]
enum Field {
    CellLength,
    /// of the boundaries held, left and right, and then of those to set
    Boundary(usize, Part),
    Cell(usize, Column),
    /// of an interface
    Carried(usize),
    Outlet(usize, Entry),
    /// left, then right
    Total(usize),
    TimeStep,
    Strickler,
}

#[derive(Clone, Copy, Debug, PartialEq)]
enum Part {
    Kind,
    Reserved,
    Depth,
    Concentration,
    Discharge,
}

const PARTS: [Part; 5] = [
    Part::Kind,
    Part::Reserved,
    Part::Depth,
    Part::Concentration,
    Part::Discharge,
];

#[derive(Clone, Copy, Debug, PartialEq)]
enum Column {
    Bed,
    Depth,
    Discharge,
    Mass,
    Base,
}

const COLUMNS: [Column; 5] = [
    Column::Bed,
    Column::Depth,
    Column::Discharge,
    Column::Mass,
    Column::Base,
];

/// A number of an outlet.
#[derive(Clone, Copy, Debug, PartialEq)]
enum Entry {
    Cell,
    Want,
    Drawn,
    Water,
    Mass,
}

const ENTRIES: [Entry; 5] = [
    Entry::Cell,
    Entry::Want,
    Entry::Drawn,
    Entry::Water,
    Entry::Mass,
];

impl Field {
    fn place(self, given: &mut Given) -> Place<'_> {
        let Given {
            record,
            new,
            t,
            strickler,
        } = given;
        let c = &mut record.columns;
        match self {
            Field::CellLength => Place::Unsigned(&mut record.x),
            Field::Boundary(side @ 0..=1, part) => part.place(&mut record.ends[side]),
            Field::Boundary(side, part) => part.place(&mut new[side - 2]),
            Field::Cell(i, Column::Bed) => Place::Signed(&mut c.bed[i]),
            Field::Cell(i, Column::Depth) => Place::Unsigned(&mut c.depth[i]),
            Field::Cell(i, Column::Discharge) => Place::Signed(&mut c.discharge[i]),
            Field::Cell(i, Column::Mass) => Place::Unsigned(&mut c.nutrient[i]),
            Field::Cell(i, Column::Base) => Place::Unsigned(&mut c.base[i]),
            Field::Carried(i) => Place::Signed(&mut c.carried[i]),
            Field::Outlet(k, entry) => entry.place(&mut record.outlets[k]),
            Field::Total(k) => {
                let total = totals_mut(&mut record.book).into_iter().nth(k);
                Place::Unsigned(total.expect("eight totals"))
            }
            Field::TimeStep => Place::Unsigned(t),
            Field::Strickler => Place::Unsigned(strickler),
        }
    }

    /// The paper's ground for a number out of its range.
    fn ground(self) -> u32 {
        match self {
            Field::CellLength => 5,
            Field::Boundary(..) => 6,
            Field::Cell(..) => 7,
            Field::Outlet(_, Entry::Cell | Entry::Want) => 16,
            Field::Carried(_) | Field::Outlet(_, Entry::Drawn) => 8,
            Field::Total(_) | Field::Outlet(_, Entry::Water | Entry::Mass) => 9,
            Field::TimeStep => 10,
            Field::Strickler => 17,
        }
    }

    /// The greatest size that the paper allows it beside the other numbers given.
    fn most(self, given: &Given) -> u64 {
        let c = &given.record.columns;
        let boundaries = [given.record.ends, given.new];
        match self {
            Field::CellLength => MOST_X,
            Field::Boundary(_, Part::Kind) => FED.into(),
            Field::Boundary(_, Part::Reserved) => 0,
            Field::Boundary(_, Part::Depth) => DEEPEST,
            Field::Boundary(_, Part::Concentration) => RICHEST,
            Field::Boundary(side, Part::Discharge) => {
                FASTEST * boundaries.as_flattened()[side].depth
            }
            Field::Cell(_, Column::Bed) => BED_LIMIT as u64,
            Field::Cell(_, Column::Depth | Column::Base) => DEEPEST,
            Field::Cell(i, Column::Discharge) => FASTEST * c.depth[i],
            Field::Cell(i, Column::Mass) => RICHEST * c.base[i],
            Field::Outlet(_, Entry::Cell) => c.bed.len() as u64 - 1,
            Field::Outlet(_, Entry::Want) => DEEPEST,
            Field::Carried(_) | Field::Outlet(_, Entry::Drawn) => DEEPEST,
            Field::Total(_) | Field::Outlet(_, Entry::Water | Entry::Mass) => MOST_TOTAL,
            Field::TimeStep => MOST_T,
            // wide numbers are far beyond 10
            Field::Strickler => 90,
        }
    }

    /// Which calls are given it, in the order of `numbers`.
    fn given_to(self) -> [bool; 5] {
        match self {
            Field::TimeStep | Field::Strickler => [true, false, false, false, false],
            Field::Boundary(2.., _) => [false, false, true, false, false],
            _ => [true; 5],
        }
    }

    /// Whether a sheet has the bits for this value.
    fn in_sheet(self, value: i128) -> bool {
        match self {
            Field::Cell(_, Column::Bed) => i32::try_from(value).is_ok(),
            Field::CellLength
            | Field::Boundary(_, Part::Depth | Part::Concentration)
            | Field::Cell(_, Column::Depth) => u32::try_from(value).is_ok(),
            Field::Boundary(..) | Field::Cell(_, Column::Discharge | Column::Mass) => true,
            _ => false,
        }
    }
}

impl Part {
    fn place(self, boundary: &mut End) -> Place<'_> {
        match self {
            Part::Kind => Place::Word(&mut boundary.kind),
            Part::Reserved => Place::Word(&mut boundary.zero),
            Part::Depth => Place::Unsigned(&mut boundary.depth),
            Part::Concentration => Place::Unsigned(&mut boundary.concentration),
            Part::Discharge => Place::Signed(&mut boundary.discharge),
        }
    }
}

impl Entry {
    fn place(self, outlet: &mut Outlet) -> Place<'_> {
        Place::Unsigned(match self {
            Entry::Cell => &mut outlet.cell,
            Entry::Want => &mut outlet.want,
            Entry::Drawn => &mut outlet.drawn,
            Entry::Water => &mut outlet.water,
            Entry::Mass => &mut outlet.nutrient,
        })
    }
}

/// Where a number stands, in the bits that the C functions have for it.
enum Place<'a> {
    Word(&'a mut u32),
    Unsigned(&'a mut u64),
    Signed(&'a mut i64),
}

impl Place<'_> {
    fn get(&self) -> i128 {
        match self {
            Place::Word(v) => (**v).into(),
            Place::Unsigned(v) => (**v).into(),
            Place::Signed(v) => (**v).into(),
        }
    }

    fn set(self, value: i128) {
        match self {
            Place::Word(v) => *v = value.try_into().expect("32 bits"),
            Place::Unsigned(v) => *v = value.try_into().expect("64 bits"),
            Place::Signed(v) => *v = value.try_into().expect("64 bits"),
        }
    }

    /// Powers of two of either sign, and what lies one and the number that stands here to either side of them, as far as there are bits for it.
    /// From 2^31 up; where there are 32 bits, from 2^8 up.
    fn wide(&self) -> Vec<i128> {
        let (lowest, least, most) = match self {
            Place::Word(_) => (8, 0, u32::MAX.into()),
            Place::Unsigned(_) => (31, 0, u64::MAX.into()),
            Place::Signed(_) => (31, i64::MIN.into(), i64::MAX.into()),
        };
        let mut list = Vec::new();
        for power in (lowest..=64).map(|bit| 1 << bit) {
            for beside in [0, 1, self.get()] {
                list.extend([power + beside, power - beside]);
                list.extend([-power + beside, -power - beside]);
            }
        }
        list.retain(|value| (least..=most).contains(value));
        list.sort();
        list.dedup();
        list
    }
}

/// Three cells of about this depth between these boundaries, as after an opening.
fn reach(depth: u64, boundaries: [End; 2]) -> Record {
    let (middle, last) = (depth - depth / 10, depth - depth / 5);
    let cells = [
        (0, depth, 5 * depth as i64, 11 * depth),
        (-40, middle, -3 * middle as i64, 0),
        (30, last, 0, 400 * last),
    ];
    fresh(1_000, boundaries, &cells)
}

/// Two outlets at the last cell and one at the first between them, which want some of what a step of 5 ms leaves.
fn outlets(depth: u64) -> Vec<Outlet> {
    [(2, depth / 20), (0, depth / 40), (2, 1)]
        .map(|(cell, want)| Outlet::new(cell, want))
        .to_vec()
}

/// Pairs of boundaries with every kind on either side.
fn pairs(depth: u64) -> [[End; 2]; 3] {
    let open = End {
        kind: OPEN,
        concentration: 500,
        ..WALL
    };
    let fed = End {
        kind: FED,
        depth,
        discharge: 7 * depth as i64,
        ..open
    };
    [[WALL, open], [open, fed], [fed, WALL]]
}

/// Sound arguments, with nothing carried or drawn and with water carried and drawn by a step. The shallow cells and boundaries allow no discharge or
/// mass near 2^31, the deep ones some beyond 2^32.
fn sound_arguments() -> Vec<Given> {
    let mut list = Vec::new();
    for depth in [4_000, 3_000_000] {
        for (held, new) in [(0, 1), (1, 2), (2, 0)] {
            let mut given = Given {
                record: reach(depth, pairs(depth)[held]),
                new: pairs(depth)[new],
                t: 5,
                strickler: [0, 30, 90][held],
            };
            given.record.outlets = outlets(depth);
            assert_eq!(numbers(&given), [0; 5]);
            list.push(given.clone());
            let step = Call::Step(greatest(&given.record), given.strickler);
            assert_eq!(same(step, &mut given.record).refusal, 0);
            assert_eq!(numbers(&given), [0, 0, 0, 0, 14]);
            assert!(given.record.outlets.iter().all(|o| o.drawn > 0));
            list.push(given);
        }
    }
    list
}

/// A field and what is put into it.
type Change = (Field, i128);

/// The sound arguments with each wide number in each of these fields.
fn changed(sound: &Given, fields: &[Field]) -> Vec<(Change, Given)> {
    let mut list = Vec::new();
    for &field in fields {
        for value in field.place(&mut sound.clone()).wide() {
            let mut given = sound.clone();
            field.place(&mut given).set(value);
            list.push(((field, value), given));
        }
    }
    list
}

/// Where a ground stands in checking order: 16 comes after 7, 17 after 10.
fn order(ground: u32) -> usize {
    let of_record = GROUNDS.iter().position(|&g| g == ground);
    of_record.unwrap_or(ground as usize)
}

/// For each call the first ground of what is changed in sound arguments to a value that the paper does not allow.
fn first_grounds(sound: &Given, changes: &[Change]) -> [Option<u32>; 5] {
    let allowed = |field: Field, value: i128| value.unsigned_abs() <= field.most(sound).into();
    from_fn(|call| {
        let concerned = changes.iter().filter(|(field, _)| field.given_to()[call]);
        concerned
            .filter(|(field, value)| !allowed(*field, *value))
            .map(|(field, _)| field.ground())
            .min_by_key(|&ground| order(ground))
    })
}

/// Every wide number in these fields: the calls that are given it refuse it on the paper's ground, or answer as before where the paper allows it.
/// Tells whether some were allowed.
fn some_allowed(fields: &[Field]) -> bool {
    let (mut all, mut allowed) = (0, 0);
    for sound in sound_arguments() {
        let before = numbers(&sound);
        for (change, given) in changed(&sound, fields) {
            let grounds = first_grounds(&sound, &[change]);
            let expected = from_fn(|call| grounds[call].unwrap_or(before[call]));
            assert_eq!(numbers(&given), expected, "{change:?} in {sound:?}");
            all += 1;
            allowed += u64::from(grounds == [None; 5]);
        }
    }
    assert!(allowed < all, "{fields:?}");
    allowed > 0
}

/// A discharge of more than 32 bits may stand at a deep boundary, and nothing else.
fn boundaries(sides: [usize; 2]) {
    for part in PARTS {
        let fields = sides.map(|side| Field::Boundary(side, part));
        assert_eq!(some_allowed(&fields), part == Part::Discharge, "{part:?}");
    }
}

#[test]
fn wide_numbers_lie_about_powers_of_two() {
    let (low, high, end) = (1 << 32, 1 << 63, 1 << 64);
    let list = Place::Unsigned(&mut 1_000).wide();
    for value in [low - 1, low, low + 1, low + 1_000, high - 1, high] {
        assert!(list.contains(&value), "{value}");
    }
    for value in [high + 1_000, end - 1, end - 1_000] {
        assert!(list.contains(&value), "{value}");
    }
    let list = Place::Signed(&mut -1_000).wide();
    for value in [low - 1, low, low + 1, low + 1_000, high - 1, high - 1_000] {
        assert!(list.contains(&value) && list.contains(&-value), "{value}");
    }
    assert!(list.contains(&-high));
}

#[test]
fn wide_cell_lengths() {
    assert!(!some_allowed(&[Field::CellLength]));
}

#[test]
fn wide_boundaries_held() {
    boundaries([0, 1]);
}

#[test]
fn wide_boundaries_to_set() {
    boundaries([2, 3]);
}

/// A discharge or a mass of more than 32 bits may stand in a deep cell.
#[test]
fn wide_cell_values() {
    for column in COLUMNS {
        let fields = [0, 1, 2].map(|i| Field::Cell(i, column));
        let allowed = matches!(column, Column::Discharge | Column::Mass);
        assert_eq!(some_allowed(&fields), allowed, "{column:?}");
    }
}

#[test]
fn wide_carried_water() {
    assert!(!some_allowed(&[0, 1, 2, 3].map(Field::Carried)));
}

/// The same water through every interface: the depths still follow, and only the sizes tell.
#[test]
fn wide_water_through_every_interface() {
    for mut sound in sound_arguments() {
        let place = Field::Carried(0).place(&mut sound);
        let (first, values) = (place.get(), place.wide());
        for value in values {
            let carried = sound.record.columns.carried.iter();
            let shifted = carried.map(|&c| i64::try_from(i128::from(c) + value - first));
            // further than 64 bits reach
            let Ok(shifted) = shifted.collect() else {
                continue;
            };
            let mut given = sound.clone();
            given.record.columns.carried = shifted;
            assert_eq!(numbers(&given), [8; 5], "{value} in {sound:?}");
        }
    }
}

/// 10^18 lies between 2^59 and 2^60, so a total beyond 2^32 may stand at an outlet, and nothing else.
#[test]
fn wide_outlets() {
    for entry in ENTRIES {
        for k in 0..3 {
            let allowed = matches!(entry, Entry::Water | Entry::Mass);
            let fields = [Field::Outlet(k, entry)];
            assert_eq!(some_allowed(&fields), allowed, "{k} {entry:?}");
        }
    }
}

/// Of two outlets at one cell the first has drawn so much more, and the other so much less, which passes 0: cut to 64 bits their sum is the right one.
#[test]
fn wide_drawn_water_that_wraps() {
    for sound in sound_arguments() {
        for more in [1 << 31, 1 << 32, 1 << 33, 1 << 62, 1 << 63] {
            let mut given = sound.clone();
            let [first, _, last] = &mut given.record.outlets[..] else {
                panic!("three outlets");
            };
            assert_eq!(first.cell, last.cell);
            first.drawn = first.drawn.wrapping_add(more);
            last.drawn = last.drawn.wrapping_sub(more);
            assert_eq!(numbers(&given), [8; 5], "{more} in {sound:?}");
        }
    }
}

/// Of a list lent to an opening cell and want are looked at, and the rest becomes 0 whatever it is.
#[test]
fn wide_outlets_lent_to_an_opening() {
    let mut seen = BTreeSet::new();
    for sound in sound_arguments().into_iter().filter(settled) {
        let opening = Opening::of(sound.record.clone(), COLUMN_ORDERS[0]);
        let fields = [0, 1, 2].map(|k| ENTRIES.map(|entry| Field::Outlet(k, entry)));
        for (change, Given { record, .. }) in changed(&sound, fields.as_flattened()) {
            let opened = same_opening_with(&opening.sheet, &opening.lent, &record.outlets);
            let expected = match change.0.ground() {
                16 => Err(16),
                _ => Ok(sound.record.clone()),
            };
            assert_eq!(opened, expected, "{change:?} in {sound:?}");
            let refused = same_opening_with(&opening.sheet[..79], &opening.lent, &record.outlets);
            assert_eq!(refused, Err(1));
            seen.insert(opened.is_ok());
        }
    }
    assert_eq!(seen.len(), 2);
}

/// 10^18 lies between 2^59 and 2^60.
#[test]
fn wide_totals() {
    for total in 0..8 {
        assert!(some_allowed(&[Field::Total(total)]));
    }
}

#[test]
fn wide_time_steps() {
    assert!(!some_allowed(&[Field::TimeStep]));
}

#[test]
fn wide_coefficients() {
    assert!(!some_allowed(&[Field::Strickler]));
}

/// Nothing is carried or drawn.
fn settled(given: &Given) -> bool {
    let Record {
        columns, outlets, ..
    } = &given.record;
    columns.carried.iter().all(|&c| c == 0) && outlets.iter().all(|o| o.drawn == 0)
}

/// What a sheet can hold of them opens as the record, or is refused on its ground.
#[test]
fn wide_numbers_in_a_sheet() {
    let of_boundary = |side| PARTS.map(|part| Field::Boundary(side, part));
    let of_cell = |i| COLUMNS.map(|column| Field::Cell(i, column));
    let mut fields = vec![Field::CellLength];
    fields.extend([0, 1].map(of_boundary).concat());
    fields.extend([0, 1, 2].map(of_cell).concat());
    let mut seen = BTreeSet::new();
    for sound in sound_arguments().into_iter().filter(settled) {
        for (change, Given { record, .. }) in changed(&sound, &fields) {
            if !change.0.in_sheet(change.1) {
                continue;
            }
            let [ground, ..] = first_grounds(&sound, &[change]);
            let expected = ground.map_or(Ok(record.clone()), Err);
            for order in [COLUMN_ORDERS[0], COLUMN_ORDERS[23]] {
                let opening = Opening::of(record.clone(), order);
                let list = &record.outlets;
                let opened = same_opening_with(&opening.sheet, &opening.lent, list);
                assert_eq!(opened, expected, "{change:?} in {sound:?}");
            }
            seen.insert(ground);
        }
    }
    assert_eq!(Vec::from_iter(seen), [None, Some(5), Some(6), Some(7)]);
}

/// An opening overwrites whatever the lent columns hold, and a refused one leaves it.
#[test]
fn wide_numbers_in_lent_columns() {
    let record = reach(4_000, [WALL; 2]);
    let n = record.columns.bed.len();
    let sheet = Opening::of(record.clone(), COLUMN_ORDERS[0]).sheet;
    for value in Place::Unsigned(&mut 4_000).wide() {
        let bits = value as u64;
        let lent = Columns {
            bed: vec![bits as i64; n],
            depth: vec![bits; n],
            discharge: vec![bits as i64; n],
            nutrient: vec![bits; n],
            base: vec![bits; n],
            carried: vec![bits as i64; n + 1],
        };
        assert_eq!(same_opening(&sheet, &lent).as_ref(), Ok(&record));
        assert_eq!(same_opening(&sheet[..79], &lent), Err(1));
    }
}

/// Any field of a record, of the boundaries to set, t or Strickler's coefficient.
fn any_field(r: &mut Random, record: &Record) -> Field {
    let mut below = |limit: usize| r.below(limit as u64) as usize;
    let (n, outlets) = (record.columns.bed.len(), record.outlets.len());
    match below(11) {
        0 => Field::CellLength,
        1 => Field::TimeStep,
        10 => Field::Strickler,
        2 | 3 => Field::Boundary(below(4), PARTS[below(5)]),
        4 | 5 => Field::Cell(below(n), COLUMNS[below(5)]),
        6 => Field::Carried(below(n + 1)),
        7 | 8 if outlets > 0 => Field::Outlet(below(outlets), ENTRIES[below(5)]),
        _ => Field::Total(below(8)),
    }
}

/// A sound record of any length, carrying water or not, with or without outlets, with sound arguments.
fn any_given(r: &mut Random) -> Given {
    let (n, kinds, carrying) = (cell_count(r), kinds(r), r.one_in(2));
    let mut record = record_of(r, n, kinds, carrying);
    if r.one_in(2) {
        lend_outlets(r, &mut record, carrying);
    }
    Given {
        t: 1 + r.below(greatest(&record)),
        strickler: allowed_strickler(r),
        new: [end(r), end(r)],
        record,
    }
}

/// One to three wide numbers in any fields.
fn mixture(r: &mut Random, sound: &Given) -> (Vec<Change>, Given) {
    let mut given = sound.clone();
    let mut changes: Vec<Change> = Vec::new();
    for _ in 0..1 + r.below(3) {
        let field = any_field(r, &sound.record);
        if changes.iter().all(|&(changed, _)| changed != field) {
            let value = r.pick(&field.place(&mut given).wide());
            field.place(&mut given).set(value);
            changes.push((field, value));
        }
    }
    (changes, given)
}

/// The first of the grounds is the answer.
#[test]
fn mixtures_of_wide_numbers() {
    let mut r = Random::new(89);
    let mut seen = BTreeSet::new();
    for _ in 0..20_000 {
        let sound = any_given(&mut r);
        let (changes, given) = mixture(&mut r, &sound);
        let numbers = numbers(&given);
        for (call, ground) in first_grounds(&sound, &changes).into_iter().enumerate() {
            // where all are allowed, a later ground may stop the call
            if ground.is_some() {
                assert_eq!(Some(numbers[call]), ground, "{changes:?} in {sound:?}");
            }
            seen.insert((call, numbers[call]));
        }
    }
    for call in 0..5 {
        for number in [0, 5, 6, 7, 16, 8, 9] {
            assert!(seen.contains(&(call, number)), "{call} {number}");
        }
    }
    assert!(seen.contains(&(0, 10)) && seen.contains(&(0, 17)));
}
