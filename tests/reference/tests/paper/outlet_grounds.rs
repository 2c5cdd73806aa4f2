//! Grounds that outlets bring: 16, and their part in 8, 9, 13 and 14.

use reference::random::{sheet_of, Record, COLUMN_ORDERS};
use reference::record::MOST_TOTAL;
use reference::{greatest_step, open, write, Columns, Outlet};

use crate::support::{draw, open_end, record, settle, settled, step, WALL_END};

/// Two cells of 10 between walls; nothing crosses in a step of 1.
fn reach() -> Record {
    let cells = [(0, 10, 0, 100), (0, 10, 0, 100)];
    let mut reach = settled(100_000, [WALL_END; 2], &cells);
    reach.outlets = vec![Outlet::new(0, 3), Outlet::new(0, 2), Outlet::new(1, 0)];
    reach
}

fn look(r: &Record) -> u32 {
    greatest_step(&r.columns, &r.outlets, r.x, r.ends, r.book).refusal
}

fn written(r: &Record, room: usize) -> u32 {
    let mut out = vec![0; room];
    write(&r.columns, &r.outlets, r.x, r.ends, r.book, &mut out).refusal
}

fn changed(change: impl Fn(&mut Record)) -> Record {
    let mut changed = reach();
    change(&mut changed);
    changed
}

/// One list for each way to break ground 16 of two cells.
fn lists_broken() -> Vec<Vec<Outlet>> {
    let mut lists = vec![vec![Outlet::new(1, 0); 33], vec![Outlet::default(); 300]];
    for cell in [2, 1 << 32, (1 << 32) + 1, 1 << 63, u64::MAX] {
        lists.push(vec![Outlet::new(0, 0), Outlet::new(cell, 0)]);
    }
    for want in [4_000_001, 1 << 32, (1 << 32) + 5, 1 << 63, u64::MAX] {
        lists.push(vec![Outlet::new(1, want), Outlet::new(1, 0)]);
    }
    lists
}

#[test]
fn list_too_long_cell_beyond_or_want_out_of_range_is_16() {
    for outlets in lists_broken() {
        let record = changed(|r| r.outlets.clone_from(&outlets));
        assert_eq!(look(&record), 16, "{outlets:?}");
    }
    let longest = changed(|r| r.outlets = vec![Outlet::new(1, 4_000_000); 32]);
    assert_eq!(look(&longest), 0);
    assert_eq!(look(&changed(|r| r.outlets.clear())), 0);
}

#[test]
fn ground_16_comes_after_7_and_before_8() {
    for outlets in lists_broken() {
        let mut record = changed(|r| r.outlets.clone_from(&outlets));
        record.book.left.water_in = MOST_TOTAL + 1;
        record.columns.carried[1] = 1;
        record.columns.bed[0] = 100_000_001;
        assert_eq!(look(&record), 7);
        record.columns.bed[0] = 0;
        assert_eq!(look(&record), 16);
        record.outlets.clear();
        assert_eq!(look(&record), 8);
        record.columns.carried[1] = 0;
        assert_eq!(look(&record), 9);
    }
}

#[test]
fn opening_checks_the_list_last() {
    let sound = reach();
    let sheet = sheet_of(&sound, COLUMN_ORDERS[0]);
    let mut deep = sheet.clone();
    // the first depth stands behind two bottoms
    deep[88..92].copy_from_slice(&4_000_001u32.to_le_bytes());
    for outlets in lists_broken() {
        let mut lent = outlets.clone();
        let mut columns = Columns::of_cells(2);
        let refusals = [&deep, &sheet].map(|bytes| open(bytes, &mut columns, &mut lent).refusal);
        assert_eq!(refusals, [7, 16]);
        assert_eq!((lent, columns), (outlets, Columns::of_cells(2)));
    }
}

#[test]
fn opening_sets_drawn_water_and_totals_to_0() {
    // it does not look at them: each would be 8 or 9 of a record
    let odd = |cell, want| Outlet {
        drawn: u64::MAX,
        water: MOST_TOTAL + 1,
        nutrient: 1 << 63,
        ..Outlet::new(cell, want)
    };
    let sound = reach();
    let sheet = sheet_of(&sound, COLUMN_ORDERS[0]);
    let mut columns = Columns::of_cells(2);
    let mut outlets = [odd(1, 4_000_000), odd(0, 0), odd(1, 5)];
    let cut = &sheet[..sheet.len() - 1];
    assert_eq!(open(cut, &mut columns, &mut outlets).refusal, 2);
    assert_eq!(outlets, [odd(1, 4_000_000), odd(0, 0), odd(1, 5)]);
    assert_eq!(open(&sheet, &mut columns, &mut outlets).refusal, 0);
    assert_eq!(columns, sound.columns);
    let entries = [(1, 4_000_000), (0, 0), (1, 5)];
    assert_eq!(outlets, entries.map(|(cell, want)| Outlet::new(cell, want)));
}

#[test]
fn drawn_water_is_part_of_the_depth_identity() {
    let drawn = changed(|r| draw(r, 1, 4));
    assert_eq!((drawn.columns.depth[0], look(&drawn)), (6, 0));
    for drawn in [3, 5, 0, 4 + (1 << 32), 4 + (1 << 63), u64::MAX] {
        let off = changed(|r| {
            draw(r, 1, 4);
            r.outlets[1].drawn = drawn;
        });
        assert_eq!(look(&off), 8, "{drawn}");
    }
    // another outlet of the cell has drawn it, then one of another cell
    for (k, refusal) in [(0, 0), (2, 8)] {
        let other = changed(|r| {
            draw(r, 1, 4);
            r.outlets[1].drawn = 0;
            r.outlets[k].drawn = 4;
        });
        assert_eq!(look(&other), refusal);
    }
}

#[test]
fn outflow_with_drawn_water_is_bounded_by_the_base() {
    // 6 to the right and 4 or 5 drawn of a base of 10, into which 3 came
    for (drawn, refusal) in [(4, 0), (5, 8)] {
        let cells = [(0, 10, 0, 0), (0, 10, 0, 0)];
        let mut over = record(100_000, [open_end(0); 2], &cells, &[3, 6, 0]);
        over.outlets = vec![Outlet::new(0, 0)];
        draw(&mut over, 0, drawn);
        assert_eq!(over.columns.depth[0], 7 - drawn);
        assert_eq!(look(&over), refusal);
    }
}

#[test]
fn drawn_sums_past_64_bits_are_8() {
    // 4 and twice 2^63: cut to 64 bits the sum would fit the depth
    let twice = changed(|r| {
        draw(r, 0, 4);
        r.outlets[0].drawn += 1 << 63;
        r.outlets[1].drawn = 1 << 63;
    });
    assert_eq!(look(&twice), 8);
    // 32 times 2^59
    let often = changed(|r| {
        let entry = Outlet {
            drawn: 1 << 59,
            ..Outlet::new(1, 0)
        };
        r.outlets = vec![entry; 32];
    });
    assert_eq!(look(&often), 8);
    let most = changed(|r| {
        let entry = Outlet {
            drawn: u64::MAX,
            ..Outlet::new(0, 0)
        };
        r.outlets = vec![entry; 32];
    });
    assert_eq!(look(&most), 8);
}

#[test]
fn totals_over_the_limit_are_9() {
    for (total, refusal) in [(MOST_TOTAL, 0), (MOST_TOTAL + 1, 9), (u64::MAX, 9)] {
        assert_eq!(look(&changed(|r| r.outlets[2].water = total)), refusal);
        assert_eq!(look(&changed(|r| r.outlets[1].nutrient = total)), refusal);
    }
}

#[test]
fn water_that_would_pass_the_limit_is_13() {
    // the second outlet has 2 a step, the third nothing
    for (k, total, refusal) in [
        (1, MOST_TOTAL - 2, 0),
        (1, MOST_TOTAL - 1, 13),
        (1, MOST_TOTAL, 13),
        (2, MOST_TOTAL, 0),
    ] {
        let mut full = changed(|r| r.outlets[k].water = total);
        let before = full.clone();
        assert_eq!(step(&mut full, 1).refusal, refusal);
        assert_eq!(refusal != 0, full == before);
    }
}

#[test]
fn nutrient_that_would_pass_the_limit_is_13() {
    // 4 of 10 drawn: 40 of 100 grains
    for (total, refusal) in [
        (MOST_TOTAL - 40, 0),
        (MOST_TOTAL - 39, 13),
        (MOST_TOTAL, 13),
    ] {
        let full = || {
            changed(|r| {
                draw(r, 1, 4);
                r.outlets[1].nutrient = total;
            })
        };
        let mut settled = full();
        assert_eq!(settle(&mut settled), refusal);
        assert_eq!(refusal != 0, settled == full());
        // a step that keeps its sums adds no nutrient
        assert_eq!(step(&mut full(), 1).refusal, 0);
    }
}

#[test]
fn nutrient_of_a_settling_inside_a_step_counts() {
    // 9 of 10 were drawn, so 90 of 100 grains, and 5 came in; 3 and 2 more make the step settle
    for (total, refusal) in [(MOST_TOTAL - 90, 0), (MOST_TOTAL - 89, 13)] {
        let ends = [open_end(0); 2];
        let mut reach = record(100_000, ends, &[(0, 10, 0, 100)], &[5, 0]);
        reach.outlets = vec![Outlet::new(0, 3), Outlet::new(0, 2)];
        draw(&mut reach, 0, 9);
        reach.outlets[0].nutrient = total;
        let before = reach.clone();
        let answer = step(&mut reach, 1);
        assert_eq!((answer.refusal, answer.settled), (refusal, refusal == 0));
        assert_eq!(refusal != 0, reach == before);
        if refusal == 0 {
            assert_eq!(reach.outlets[0].nutrient, MOST_TOTAL);
            assert_eq!(reach.columns.nutrient, [10]);
        }
    }
}

#[test]
fn drawn_water_is_not_written() {
    let sheet = 80 + 24 * 2;
    let mut drawn = changed(|r| draw(r, 1, 1));
    assert_eq!([written(&drawn, 0), written(&drawn, sheet)], [14, 14]);
    assert_eq!(settle(&mut drawn), 0);
    assert_eq!(
        [written(&drawn, sheet - 1), written(&drawn, sheet)],
        [15, 0]
    );
}

#[test]
fn sheet_does_not_hold_the_list() {
    let bytes = |record: &Record| {
        let mut out = vec![0xA5; 140];
        let r = record;
        let answer = write(&r.columns, &r.outlets, r.x, r.ends, r.book, &mut out);
        assert_eq!(answer.refusal, 0);
        out
    };
    let without = changed(|r| r.outlets.clear());
    let full = changed(|r| r.outlets[0].water = MOST_TOTAL);
    assert_eq!(bytes(&reach()), bytes(&without));
    assert_eq!(bytes(&full), bytes(&without));
}
