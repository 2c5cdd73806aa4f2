//! The greatest step against trying every step, and its place.

use reference::random::{any_record, record, Random, Record};
use reference::{greatest_step, End};

use crate::amounts::searched_wave_speed;
use crate::support::{fed_end, open_end, settled, WALL_END};

fn greatest(record: &Record) -> (u64, usize) {
    let answer = greatest_step(
        &record.columns,
        &record.outlets,
        record.x,
        record.ends,
        record.book,
    );
    assert_eq!(answer.refusal, 0);
    assert_eq!((answer.ends, answer.book), (record.ends, record.book));
    (answer.t, answer.place)
}

/// Depth and discharge of 2,000 mm/s at rest: 1,999² < 14.709975·271,900 ≤ 2,000².
const FAST: (u64, i64) = (271_900, 0);
/// 1,500 mm/s, as 1,499² < 14.709975·152,900 ≤ 1,500², and 500 mm/s leftwards: 2,000 too.
const SWEPT: (u64, i64) = (152_900, -76_450_000);
/// 1,213 mm/s
const SLOW: (u64, i64) = (100_000, 0);
const DRY: (u64, i64) = (0, 0);

fn fed((depth, discharge): (u64, i64)) -> End {
    fed_end(depth, discharge, 0)
}

/// The answer for these cells on a flat bed, X 1,000.
fn reach(ends: [End; 2], cells: &[(u64, i64)]) -> (u64, usize) {
    let cells: Vec<_> = cells.iter().map(|&(h, q)| (0, h, q, 0)).collect();
    greatest(&settled(1_000, ends, &cells))
}

/// Every pair of ends that are not fed.
fn not_fed() -> [[End; 2]; 4] {
    let open = open_end(5);
    [
        [WALL_END, WALL_END],
        [WALL_END, open],
        [open, WALL_END],
        [open, open],
    ]
}

#[test]
fn greatest_step_is_the_last_that_is_not_11() {
    let mut r = Random::new(5);
    for round in 0..60 {
        let sound = record(&mut r, 1 + round % 6);
        let (t, _) = greatest(&sound);
        let mut lent = sound.clone();
        for tried in 1..=1_000 {
            let answer = reference::step(
                &mut lent.columns,
                &mut lent.outlets,
                lent.x,
                lent.ends,
                lent.book,
                tried,
                0,
            );
            assert_eq!(answer.refusal == 11, tried > t, "t {tried}, greatest {t}");
            if answer.refusal == 0 {
                lent.clone_from(&sound);
            }
        }
    }
}

#[test]
fn place_is_the_last_of_the_fastest() {
    let mut r = Random::new(6);
    let mut ties = 0;
    for _ in 0..600 {
        let sound = any_record(&mut r);
        let c = &sound.columns;
        let reach = |h: u64, q: i64| {
            let u = if h == 0 { 0 } else { q / h as i64 };
            u.unsigned_abs() + searched_wave_speed(h)
        };
        let at_end = |k: usize| match sound.ends[k].kind {
            2 => reach(sound.ends[k].depth, sound.ends[k].discharge),
            _ => 0,
        };
        let mut all = vec![at_end(0)];
        all.extend((0..c.bed.len()).map(|i| reach(c.depth[i], c.discharge[i])));
        all.push(at_end(1));
        let most = *all.iter().max().unwrap();
        let equal: Vec<_> = (0..all.len()).filter(|&p| all[p] == most).collect();
        assert_eq!(greatest(&sound).1, equal[equal.len() - 1], "{equal:?}");
        ties += u32::from(equal.len() > 1);
    }
    assert!(ties > 100, "{ties}");
}

#[test]
fn equal_cells_name_the_last_of_them() {
    for ends in not_fed() {
        assert_eq!(reach(ends, &[FAST, SLOW]), (500, 1));
        assert_eq!(reach(ends, &[FAST, FAST]), (500, 2));
        assert_eq!(reach(ends, &[SLOW, FAST, FAST, SLOW]), (500, 3));
        assert_eq!(reach(ends, &[FAST, SLOW, FAST, DRY]), (500, 3));
        assert_eq!(reach(ends, &[FAST; 512]), (500, 512));
    }
}

/// What counts is |u|+a, whatever makes it up.
#[test]
fn unlike_water_of_equal_speed_names_the_last() {
    let turned = (SWEPT.0, -SWEPT.1);
    assert_eq!(reach([WALL_END; 2], &[FAST, SWEPT, SLOW]), (500, 2));
    assert_eq!(reach([WALL_END; 2], &[SWEPT, FAST, SLOW]), (500, 2));
    assert_eq!(reach([WALL_END; 2], &[turned, SWEPT]), (500, 2));
    assert_eq!(reach([WALL_END; 2], &[SWEPT, turned]), (500, 2));
    assert_eq!(reach([WALL_END, fed(SWEPT)], &[FAST]), (500, 2));
}

#[test]
fn fed_left_end_gives_way_to_an_equal_place() {
    assert_eq!(reach([fed(FAST), WALL_END], &[SLOW]), (500, 0));
    assert_eq!(reach([fed(FAST), WALL_END], &[FAST]), (500, 1));
    assert_eq!(reach([fed(FAST), WALL_END], &[SLOW, FAST, SLOW]), (500, 2));
    assert_eq!(reach([fed(FAST), open_end(0)], &[FAST, SLOW]), (500, 1));
}

#[test]
fn fed_right_end_goes_before_an_equal_place() {
    assert_eq!(reach([WALL_END, fed(FAST)], &[FAST]), (500, 2));
    assert_eq!(reach([WALL_END, fed(FAST)], &[FAST, SLOW, SLOW]), (500, 4));
    assert_eq!(reach([WALL_END, fed(FAST)], &[FAST; 512]), (500, 513));
    assert_eq!(reach([WALL_END, fed(SLOW)], &[SLOW, FAST]), (500, 2));
}

#[test]
fn equal_fed_ends_name_the_right_one() {
    let ends = [fed(FAST); 2];
    assert_eq!(reach(ends, &[SLOW]), (500, 2));
    assert_eq!(reach(ends, &[SLOW, DRY, SLOW]), (500, 4));
    assert_eq!(reach(ends, &[FAST, FAST]), (500, 3));
    assert_eq!(reach([fed(FAST), fed(SLOW)], &[SLOW]), (500, 0));
}

#[test]
fn dry_reach_answers_1000_at_the_right_end() {
    for n in [1, 2, 3, 512] {
        for ends in not_fed() {
            assert_eq!(reach(ends, &vec![DRY; n]), (1_000, n + 1));
        }
    }
}

/// 4 mm/s, the slowest there is, is above what a dry place counts.
#[test]
fn slowest_water_is_named_before_dry_places() {
    let film = (1, 0);
    for ends in not_fed() {
        assert_eq!(reach(ends, &[DRY, film, DRY]), (1_000, 2));
    }
    for other in [WALL_END, open_end(5)] {
        assert_eq!(reach([fed(film), other], &[DRY; 3]), (1_000, 0));
        assert_eq!(reach([other, fed(film)], &[DRY; 3]), (1_000, 4));
    }
    assert_eq!(reach([fed(film); 2], &[DRY; 3]), (1_000, 4));
}

/// A wall's mirror and an open end's copy are as fast as their cell, and count as 0.
#[test]
fn ends_that_are_not_fed_are_never_named_beside_water() {
    for ends in not_fed() {
        for cell in [FAST, SWEPT] {
            assert_eq!(reach(ends, &[cell]), (500, 1));
            assert_eq!(reach(ends, &[cell, SLOW]), (500, 1));
            assert_eq!(reach(ends, &[SLOW, cell]), (500, 2));
        }
    }
}

#[test]
fn fed_ends_count_and_others_do_not() {
    let cells = [(0, 10, 0, 0), (0, 1_000, 0, 0)];
    let end = fed_end(1_000, 0, 0);
    assert_eq!(greatest(&settled(100, [end, end], &cells)).1, 3);
    assert_eq!(greatest(&settled(100, [end, WALL_END], &cells)).1, 2);
    assert_eq!(greatest(&settled(100, [WALL_END, end], &cells)).1, 3);
    let faster = fed_end(1_000, -1_000, 0);
    assert_eq!(greatest(&settled(100, [faster, end], &cells)).1, 0);
    assert_eq!(greatest(&settled(100, [WALL_END, faster], &cells)).1, 3);
}

/// Speeds of 2,000 and 100, rounded down, would allow 500 and 1,000.
#[test]
fn step_is_that_of_a_speed_rounded_up() {
    // 1,000,000/2,001 = 499.8 and 100,000/101 = 990.1
    assert_eq!(reach([WALL_END; 2], &[(272_000, 0)]), (499, 1));
    let film = settled(100, [WALL_END; 2], &[(0, 680, 0, 0)]);
    assert_eq!(greatest(&film), (990, 1));
}

#[test]
fn fastest_water_in_the_shortest_cell_still_steps() {
    let q = 8_000 * 4_000_000;
    let fast = settled(100, [WALL_END; 2], &[(0, 4_000_000, q, 0)]);
    assert_eq!(greatest(&fast), (6, 1));
}
