//! Outlets along the reach, by numbers worked out by hand.
//!
//! In cells of 100,000 mm a step of 1 ms moves none of a few micrometres, so all of them can be
//! given: W(10, 0) = floor(10·1·13² / (4,000·13·100,000)) = 0.

use reference::outlet::give;
use reference::random::Record;
use reference::settling::outlet_shares;
use reference::{set_ends, Outlet};

use crate::support::{draw, fed_end, open_end, record, settle, settled, step, WALL_END};

/// One cell between walls, at rest.
fn basin(depth: u64, nutrient: u64, wants: &[u64]) -> Record {
    let mut basin = settled(100_000, [WALL_END; 2], &[(0, depth, 0, nutrient)]);
    basin.outlets = wants.iter().map(|&want| Outlet::new(0, want)).collect();
    basin
}

fn drawn(record: &Record) -> Vec<u64> {
    record.outlets.iter().map(|o| o.drawn).collect()
}

fn water(record: &Record) -> Vec<u64> {
    record.outlets.iter().map(|o| o.water).collect()
}

fn nutrient(record: &Record) -> Vec<u64> {
    record.outlets.iter().map(|o| o.nutrient).collect()
}

#[test]
fn units_left_go_in_list_order_to_those_that_want_some() {
    // 10·3/13 = 2.3, 2.3 and 10·7/13 = 5.4: 9 of 10, so the first has one more
    assert_eq!(give(10, &[3, 3, 7]), [3, 2, 5]);
    // 0, 6·5/13 = 2.3 and 6·8/13 = 3.7: 5 of 6, and who wants nothing has nothing
    assert_eq!(give(6, &[0, 5, 8]), [0, 3, 3]);
    // 2·2/6 = 0.7 three times: two left for three
    assert_eq!(give(2, &[2, 2, 2]), [1, 1, 0]);
}

#[test]
fn wants_that_fit_are_met() {
    assert_eq!(give(13, &[3, 3, 7]), [3, 3, 7]);
    // 12·3/13 = 2.8, 2.8 and 12·7/13 = 6.5: 10 of 12, so the first two have one more
    assert_eq!(give(12, &[3, 3, 7]), [3, 3, 6]);
    assert_eq!(give(0, &[0, 0]), [0, 0]);
    assert_eq!(give(0, &[1, 4_000_000]), [0, 0]);
    assert_eq!(give(5, &[]), []);
}

#[test]
fn thirty_two_greatest_wants_share_one_cell() {
    // 3,999,999/32 = 124,999.97: 31 left
    let given = give(3_999_999, &[4_000_000; 32]);
    assert_eq!(given[..31], [125_000; 31]);
    assert_eq!(given[31], 124_999);
}

#[test]
fn step_gives_the_outlets_of_a_cell_what_is_there() {
    let mut basin = basin(10, 0, &[3, 3, 7]);
    let answer = step(&mut basin, 1);
    assert_eq!((answer.refusal, answer.settled), (0, false));
    assert_eq!(basin.columns.depth, [0]);
    assert_eq!(drawn(&basin), [3, 2, 5]);
    assert_eq!(water(&basin), [3, 2, 5]);
    // nothing is left to give
    assert_eq!(step(&mut basin, 1).refusal, 0);
    assert_eq!(drawn(&basin), [3, 2, 5]);
}

#[test]
fn each_cell_gives_to_its_own_outlets() {
    let cells = [(0, 6, 0, 0), (0, 20, 0, 0), (0, 9, 0, 0)];
    let mut reach = settled(100_000, [WALL_END; 2], &cells);
    let entries = [(2, 9), (0, 0), (1, 4), (0, 5), (2, 1), (0, 8)];
    reach.outlets = entries.map(|(cell, want)| Outlet::new(cell, want)).into();
    assert_eq!(step(&mut reach, 1).refusal, 0);
    // cell 0: 6 for 0, 5, 8 as above; cell 1: all; cell 2: 9·9/10 = 8.1, 9·1/10 = 0.9, one left
    assert_eq!(drawn(&reach), [9, 0, 4, 3, 0, 3]);
    assert_eq!(reach.columns.depth, [0, 16, 0]);
    assert_eq!(reach.columns.carried, [0; 4]);
}

#[test]
fn water_towards_a_wall_cannot_be_given() {
    // W(1,000,000, 0) = 95,900 to either side: 1,000,000 − 191,800 = 808,200, though N is 0
    let cell = [(0, 1_000_000, 0, 0)];
    let mut basin = settled(1_000, [WALL_END; 2], &cell);
    basin.outlets = vec![Outlet::new(0, 1_000_000)];
    assert_eq!(step(&mut basin, 100).refusal, 0);
    assert_eq!(drawn(&basin), [808_200]);
    assert_eq!(basin.columns.depth, [191_800]);
    assert_eq!(basin.columns.carried, [0, 0]);
}

#[test]
fn water_that_comes_in_cannot_be_given() {
    // the dry cell gets 95,900 and gives nothing; the other gives 808,200 of 808,201
    let cells = [(0, 1_000_000, 0, 0), (0, 0, 0, 0)];
    let mut reach = settled(1_000, [WALL_END; 2], &cells);
    reach.outlets = vec![Outlet::new(1, 5), Outlet::new(0, 808_201)];
    assert_eq!(step(&mut reach, 100).refusal, 0);
    assert_eq!(drawn(&reach), [0, 808_200]);
    // 1,000,000 − 95,900 − 808,200
    assert_eq!(reach.columns.depth, [95_900, 95_900]);
}

#[test]
fn drawing_comes_before_the_cut_of_the_discharge() {
    // speed 8,000, wave speed 13: W = floor(10·(8,013²−7,987²) / 5,200,000,000) = 0, so 9 of 10
    // can be drawn; q' is a little under 80,000, and 8,000·1 is the most that is left
    for (way, want, q) in [(1, 9, 8_000), (-1, 9, -8_000), (1, 10, 0)] {
        let cell = [(0, 10, way * 80_000, 0)];
        let mut basin = settled(100_000, [WALL_END; 2], &cell);
        basin.outlets = vec![Outlet::new(0, want)];
        assert_eq!(step(&mut basin, 1).refusal, 0);
        assert_eq!(basin.columns.depth, [10 - want]);
        assert_eq!(basin.columns.discharge, [q]);
    }
}

#[test]
fn drawing_comes_before_the_depth_check() {
    // a(4,000,000) = 7,671: W at 2,000 mm/s = floor(9,671²/76.71) = 1,219,244, at rest
    // 7,671²/76.71 = 767,100, so 452,144 come in and 4,000,000 − 2·767,100 can be given
    let ends = [fed_end(4_000_000, 2_000 * 4_000_000, 0), WALL_END];
    for (want, refusal) in [(452_143, 12), (452_144, 0), (0, 12)] {
        let mut full = settled(1_000, ends, &[(0, 4_000_000, 0, 0)]);
        full.outlets = vec![Outlet::new(0, want)];
        let before = full.clone();
        assert_eq!(step(&mut full, 100).refusal, refusal);
        if refusal == 0 {
            assert_eq!(full.columns.depth, [4_000_000]);
        } else {
            assert_eq!(full, before);
        }
    }
}

/// 3 came in at the left and 4 were drawn: of 10 there are 9.
fn drawn_before(want: u64) -> Record {
    let ends = [open_end(5), WALL_END];
    let mut cell = record(100_000, ends, &[(0, 10, 0, 10)], &[3, 0]);
    cell.outlets = vec![Outlet::new(0, want)];
    draw(&mut cell, 0, 4);
    cell
}

#[test]
fn drawn_water_equal_to_the_base_is_kept() {
    let mut cell = drawn_before(6);
    let answer = step(&mut cell, 1);
    assert_eq!((answer.refusal, answer.settled), (0, false));
    let c = &cell.columns;
    assert_eq!((c.depth[0], c.base[0], c.nutrient[0]), (3, 10, 10));
    assert_eq!(c.carried, [3, 0]);
    assert_eq!((drawn(&cell), water(&cell)), (vec![10], vec![6]));
    assert_eq!(nutrient(&cell), [0]);
}

#[test]
fn drawn_water_over_the_base_settles_with_the_old() {
    let mut cell = drawn_before(7);
    let answer = step(&mut cell, 1);
    assert_eq!((answer.refusal, answer.settled), (0, true));
    // 4 of 10 were drawn, so 4 of 10 grains; 3 come in at 5
    let c = &cell.columns;
    assert_eq!((c.depth[0], c.base[0], c.nutrient[0]), (2, 9, 21));
    assert_eq!(c.carried, [0, 0]);
    assert_eq!((drawn(&cell), water(&cell)), (vec![7], vec![7]));
    assert_eq!(nutrient(&cell), [4]);
    assert_eq!(cell.book.left.nutrient_in, 15);
}

#[test]
fn carried_and_drawn_water_count_together_in_the_test() {
    // 6 went on to the right: with 4 drawn it is the base, with 5 it is one more
    for (want, settles) in [(4, false), (5, true)] {
        let cells = [(0, 10, 0, 100), (0, 10, 0, 0)];
        let mut reach = record(100_000, [open_end(0); 2], &cells, &[3, 6, 0]);
        reach.outlets = vec![Outlet::new(0, want)];
        let answer = step(&mut reach, 1);
        assert_eq!((answer.refusal, answer.settled), (0, settles));
        // nothing was drawn before, so the settling gives the outlet nothing
        assert_eq!((drawn(&reach), nutrient(&reach)), (vec![want], vec![0]));
        let moved = if settles { [40, 60] } else { [100, 0] };
        assert_eq!(reach.columns.nutrient, moved);
    }
}

#[test]
fn nutrient_of_drawn_water_stays_until_the_settling() {
    let mut basin = basin(10, 70, &[3]);
    assert_eq!(step(&mut basin, 1).refusal, 0);
    assert_eq!((basin.columns.nutrient[0], nutrient(&basin)[0]), (70, 0));
    assert_eq!(step(&mut basin, 1).refusal, 0);
    assert_eq!((basin.columns.nutrient[0], nutrient(&basin)[0]), (70, 0));
    // 6 of 10 were drawn
    assert_eq!(settle(&mut basin), 0);
    assert_eq!((basin.columns.nutrient[0], nutrient(&basin)[0]), (28, 42));
    assert_eq!((basin.columns.base[0], drawn(&basin)[0]), (4, 0));
    assert_eq!(water(&basin), [6]);
}

#[test]
fn shares_of_an_emptied_cell_sum_to_its_nutrient() {
    let mut basin = basin(3, 10, &[0, 0]);
    draw(&mut basin, 0, 1);
    draw(&mut basin, 1, 2);
    // floor(10/3) = 3, floor(10·3/3) − 3 = 7; singly 3 and 6
    assert_eq!(outlet_shares(&basin.columns, &basin.outlets), [3, 7]);
    assert_eq!(settle(&mut basin), 0);
    assert_eq!(nutrient(&basin), [3, 7]);
    assert_eq!((basin.columns.nutrient[0], basin.columns.base[0]), (0, 0));
}

#[test]
fn shares_follow_right_left_then_outlets_in_list_order() {
    // 10 grains in 7: 2 right, 1 left, then 1 and 3 drawn; floors of 10·2/7, 10·3/7, 10·4/7 and
    // 10·7/7 are 2, 4, 5 and 10. Singly they would be 2, 1, 1 and 4.
    let ends = [open_end(0); 2];
    let cells = [(0, 7, 0, 10), (0, 5, 0, 20)];
    let mut reach = record(100_000, ends, &cells, &[-1, 2, 0]);
    reach.outlets = vec![
        Outlet::new(1, 0),
        Outlet::new(0, 0),
        Outlet::new(1, 0),
        Outlet::new(0, 0),
    ];
    draw(&mut reach, 1, 1);
    draw(&mut reach, 2, 4);
    draw(&mut reach, 3, 3);
    assert_eq!(settle(&mut reach), 0);
    assert_eq!(nutrient(&reach), [0, 1, 16, 5]);
    // the second cell keeps 4 of 20 and gets the right share
    assert_eq!(reach.columns.nutrient, [0, 6]);
    assert_eq!(reach.book.left.nutrient_out, 2);
    assert_eq!(drawn(&reach), [0; 4]);
}

#[test]
fn end_setting_settles_drawn_water() {
    let mut basin = basin(10, 40, &[7]);
    draw(&mut basin, 0, 5);
    let new = [open_end(1), WALL_END];
    let (c, outlets) = (&mut basin.columns, &mut basin.outlets);
    let answer = set_ends(c, outlets, basin.x, basin.ends, basin.book, new);
    assert_eq!((answer.refusal, answer.ends), (0, new));
    assert_eq!(c.nutrient, [20]);
    let after = Outlet {
        nutrient: 20,
        ..Outlet::new(0, 7)
    };
    assert_eq!(*outlets, [after]);
}
