//! Opening against the second implementation, of sound and damaged sheets into columns that fit and that do not: the answer and
//! all six columns, after refusals as well. Every damage has its own ground, and an opened record is what the sheet says.

use agreement::both::{fresh, same, same_opening, Call, WALL};
use agreement::sheets::{damages, exchange, lent, several, turn_bits, Opening};
use reference::random::{cell_count, sheet_of, Random, COLUMN_ORDERS};
use reference::record::{BED_LIMIT, DEEPEST, FASTEST, FED, LEAST_X, MOST_CELLS, MOST_X, RICHEST};
use reference::sheet::sheet_length;
use reference::End;
use std::collections::{BTreeMap, BTreeSet};

/// The number of the opening, 0 if the record is opened: then every call on it may go on.
fn number(opening: &Opening) -> u32 {
    match same_opening(&opening.sheet, &opening.lent) {
        Ok(mut opened) => {
            let answer = same(Call::Greatest, &mut opened);
            assert_eq!(answer.refusal, 0, "on what {opening:?} opened");
            0
        }
        Err(ground) => ground,
    }
}

/// A sound sheet opens as the record that it was made of.
fn opens(opening: &Opening) {
    let opened = same_opening(&opening.sheet, &opening.lent);
    assert_eq!(opened.as_ref(), Ok(&opening.record));
    assert_eq!(number(opening), 0);
}

/// Any number of cells in any order of columns.
fn any(r: &mut Random) -> Opening {
    let (n, order) = (cell_count(r), r.pick(&COLUMN_ORDERS));
    Opening::sound(r, n, order)
}

/// Every damage alone, in every order of the columns.
#[test]
fn each_damage_has_its_ground() {
    let mut r = Random::new(41);
    let mut seen = BTreeMap::new();
    for order in COLUMN_ORDERS {
        for n in [1, 2, 3, 9] {
            let sound = Opening::sound(&mut r, n, order);
            opens(&sound);
            for damage in &damages(&mut r, &sound) {
                let refusal = number(&sound.damaged(&[damage]));
                assert_eq!(refusal, damage.ground, "{order:?} {n} {damage:?}");
                *seen.entry(refusal).or_default() += 1;
            }
        }
    }
    let openings: u64 = seen.values().sum();
    assert!(openings >= 20_000, "{seen:?}");
    assert_eq!(Vec::from_iter(seen.into_keys()), [1, 2, 3, 4, 5, 6, 7]);
}

/// The longest sheet with every damage.
#[test]
fn the_longest_sheet_opens() {
    let mut r = Random::new(43);
    for order in [COLUMN_ORDERS[0], COLUMN_ORDERS[23]] {
        let sound = Opening::sound(&mut r, MOST_CELLS, order);
        opens(&sound);
        for damage in &damages(&mut r, &sound) {
            assert_eq!(number(&sound.damaged(&[damage])), damage.ground);
        }
    }
}

/// Several damages at once: the smallest ground is the answer, and every two grounds were met together.
#[test]
fn the_first_ground_is_the_answer() {
    let mut r = Random::new(47);
    let mut pairs = BTreeSet::new();
    let mut orders = BTreeSet::new();
    for _ in 0..2_000 {
        let sound = any(&mut r);
        let list = damages(&mut r, &sound);
        for _ in 0..15 {
            let some = several(&mut r, &list);
            let grounds: Vec<u32> = some.iter().map(|damage| damage.ground).collect();
            let refusal = number(&sound.damaged(&some));
            let first = grounds.first().copied().unwrap_or(0);
            assert_eq!(refusal, first, "{some:?} of {sound:?}");
            pairs.extend(grounds.iter().skip(1).map(|&later| (first, later)));
            if some.is_empty() {
                orders.insert(sound.order);
            }
        }
    }
    assert_eq!(pairs.len(), 7 * 6 / 2, "{pairs:?}");
    assert_eq!(orders.len(), COLUMN_ORDERS.len(), "{orders:?}");
}

/// Bits turned over anywhere, cut sheets, and columns that take the place of others of their width.
#[test]
fn other_sheets_agree() {
    let mut r = Random::new(53);
    let mut seen: BTreeMap<u32, u64> = BTreeMap::new();
    for _ in 0..6_000 {
        let sound = any(&mut r);
        let mut list = vec![];
        for (a, b) in [(0, 1), (2, 3)] {
            list.push(sound.changed(&exchange(&sound, a, b)));
        }
        let mut cut = sound.clone();
        cut.sheet
            .truncate(r.below(sound.sheet.len() as u64) as usize);
        list.push(cut);
        for _ in 0..4 {
            let mut turned = sound.clone();
            turn_bits(&mut r, &mut turned.sheet);
            list.push(turned);
        }
        for opening in &list {
            *seen.entry(number(opening)).or_default() += 1;
        }
    }
    for (ground, least) in [
        (0, 1_000),
        (1, 100),
        (2, 100),
        (3, 100),
        (5, 1),
        (6, 100),
        (7, 1_000),
    ] {
        assert!(seen.get(&ground) >= Some(&least), "{ground}: {seen:?}");
    }
}

/// Every value at its limit opens, in every order.
#[test]
fn values_at_their_limits_open() {
    let most = (FASTEST * DEEPEST) as i64;
    let cells = [
        (BED_LIMIT, DEEPEST, most, RICHEST * DEEPEST),
        (-BED_LIMIT, DEEPEST, -most, 0),
        (-1, 1, FASTEST as i64, RICHEST),
        (1, 1, -(FASTEST as i64), 1),
        (0, 0, 0, 0),
    ];
    let fed = |depth: u64, velocity: i64, concentration: u64| End {
        kind: FED,
        depth,
        discharge: velocity * depth as i64,
        concentration,
        ..WALL
    };
    let (right, left) = (FASTEST as i64, -(FASTEST as i64));
    for order in COLUMN_ORDERS {
        for boundaries in [
            [fed(1, right, RICHEST), fed(DEEPEST, left, 0)],
            [fed(DEEPEST, right, 0), fed(1, left, RICHEST)],
            [WALL; 2],
        ] {
            for x in [LEAST_X, MOST_X] {
                opens(&Opening::of(fresh(x, boundaries, &cells), order));
            }
        }
    }
}

/// Document 01: n 512 opens, 513 and 0 are 2, with columns lent for as many cells.
#[test]
fn number_of_cells() {
    for (n, expected) in [(0, 2), (1, 0), (512, 0), (513, 2), (1_000, 2)] {
        let cells = vec![(-3, 1_000, 7, 9); n];
        let sheet = sheet_of(&fresh(1_000, [WALL; 2], &cells), COLUMN_ORDERS[0]);
        assert_eq!(sheet.len(), sheet_length(n));
        let opened = same_opening(&sheet, &lent(n));
        assert_eq!(opened.err().unwrap_or(0), expected, "{n} cells");
    }
}
