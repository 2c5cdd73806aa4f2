//! Tables to sheets and back.

use crate::tools::*;
use canal::table;

const TWO_CELLS: &str = include_str!("../../examples/two_cells.txt");

/// The sheet of document 01's two cells, number by number.
fn two_cells() -> Vec<u8> {
    let header: [u32; 8] = [1, 128, 2, 1000, 80, 88, 96, 112];
    let mut sheet: Vec<u8> = header.iter().flat_map(|n| n.to_le_bytes()).collect();
    sheet.extend([0; 48]);
    sheet.extend([0; 8]);
    sheet.extend([1_000_000u32, 100_000].iter().flat_map(|n| n.to_le_bytes()));
    sheet.extend([0; 16]);
    sheet.extend([3_000_000u64, 0].iter().flat_map(|n| n.to_le_bytes()));
    sheet
}

#[test]
fn the_two_cells_take_ten_lines() {
    assert!(TWO_CELLS.lines().count() <= 10);
    let answer = fed(&["make", "-", "-"], TWO_CELLS.as_bytes());
    assert_eq!(answer.status, 0, "{}", answer.errors);
    assert_eq!(answer.bytes, two_cells());
}

#[test]
fn the_table_of_the_usage_is_one() {
    let help = call(&["help"]);
    let (_, table) = help.text().split_once("A table:\n").expect("there");
    let (table, _) = table.split_once("\nBed and depth").expect("there");
    let answer = fed(&["make", "-", "-"], table.as_bytes());
    assert_eq!(answer.status, 0, "{}", answer.errors);
    assert_eq!(answer.bytes, two_cells());
}

#[test]
fn from_file_to_file() {
    let (table, sheet) = (file("make_two.txt"), file("make_two.sheet"));
    std::fs::write(&table, TWO_CELLS).expect("written");
    let answer = call(&["make", text(&table), text(&sheet)]);
    assert_eq!((answer.status, answer.text(), &*answer.errors), (0, "", ""));
    assert_eq!(std::fs::read(&sheet).expect("there"), two_cells());
}

#[test]
fn all_that_a_table_may_have() {
    let written = "\u{feff}# a remark\r\n\r\nright fed concentration 1200 depth 500_000 discharge -2_000_000 # in any order\r\n\
                   \tleft open concentration 7\r\n cell_length 250\r\ndepth bed\r\n10 -5 x 3\r\n+20 6\r\n";
    let plain = "cell_length 250\nleft open concentration 7\nright fed depth 500000 discharge -2000000 concentration 1200\n\
                 cells\n# bed depth discharge mass\n-5 10 0 0\n-5 10 0 0\n-5 10 0 0\n6 20 0 0\n";
    let made = fed(&["make", "-", "-"], written.as_bytes());
    assert_eq!(made.status, 0, "{}", made.errors);
    assert_eq!(fed(&["show", "-"], &made.bytes).text(), plain);
    let named = written.replace("depth bed", "cells depth bed");
    assert_eq!(fed(&["make", "-", "-"], named.as_bytes()).bytes, made.bytes);
}

/// A table with this text in the place of a line, counted from 1.
fn with_line(line: usize, text: &str) -> String {
    let mut lines = [
        "cell_length 1000",
        "left wall",
        "right open concentration 0",
        "cells",
        "0 1000000 0 3000000",
        "0 100000 0 0",
    ];
    lines[line - 1] = text;
    lines.join("\n")
}

#[test]
fn wrong_lines_are_told_with_number_and_name() {
    let cases = [
        (
            1,
            "cell_length",
            "line 1: cell_length: one number is wanted",
        ),
        (
            1,
            "cell_length 1 2",
            "line 1: cell_length: one number is wanted",
        ),
        (
            1,
            "cell_length 4294967296",
            "line 1: cell_length: 4294967296 does not fit its field, 0..4294967295",
        ),
        (1, "", "line 4: the header lacks a line 'cell_length ..'"),
        (1, "length 5", "line 1: 'length' is not known here"),
        (2, "", "line 4: the header lacks a line 'left ..'"),
        (2, "left", "line 2: left: wall, open or fed is wanted"),
        (
            2,
            "left wall 5",
            "line 2: left: nothing stands behind 'wall'",
        ),
        (
            2,
            "left door",
            "line 2: left: 'door' is not a boundary; boundaries are wall, open, fed",
        ),
        (2, "left open", "line 2: left: concentration is missing"),
        (
            2,
            "left open depth 5",
            "line 2: left: 'depth' is not known here; wanted: concentration",
        ),
        (
            2,
            "left fed depth 5 discharge 0",
            "line 2: left: concentration is missing",
        ),
        (
            2,
            "left fed depth 5 depth 6",
            "line 2: left: depth is given twice",
        ),
        (
            2,
            "left fed depth",
            "line 2: left: depth: a number is wanted",
        ),
        (
            2,
            "left fed depth deep",
            "line 2: left: depth: 'deep' is not a whole number",
        ),
        (
            2,
            "left fed discharge 9223372036854775808",
            "line 2: left: discharge: 9223372036854775808 does not fit",
        ),
        (3, "left wall", "line 3: left is given twice"),
        (
            3,
            "right fed depth -1",
            "line 3: right: depth: -1 does not fit its field",
        ),
        (4, "", "line 5: a row of numbers before the line 'cells'"),
        (
            4,
            "cells bed width",
            "line 4: 'width' is not a column; columns are bed, depth, discharge, mass",
        ),
        (4, "bed depth bed", "line 4: the column bed is named twice"),
        (5, "0 12x 0 0", "line 5: depth: '12x' is not a whole number"),
        (5, "0 1.5 0 0", "line 5: depth: '1.5' is not a whole number"),
        (
            5,
            "0 4294967296 0 0",
            "line 5: depth: 4294967296 does not fit its field, 0..4294967295",
        ),
        (
            5,
            "-2147483649 0 0 0",
            "line 5: bed: -2147483649 does not fit its field",
        ),
        (
            5,
            "0 0 0 18446744073709551616",
            "line 5: mass: 18446744073709551616 does not fit its field",
        ),
        (5, "0 0 0 -1", "line 5: mass: -1 does not fit its field"),
        (
            5,
            "0 0 99999999999999999999999999999999999999999 0",
            "line 5: discharge: 99999999999999999999999999999999999999999 does not fit",
        ),
        (
            5,
            "0 0 0",
            "line 5: 3 values, but a row has 4: bed, depth, discharge, mass",
        ),
        (6, "0 0 0 0 0", "line 6: 5 values, but a row has 4"),
        (6, "0 0 0 0 x", "line 6: 5 values, but a row has 4"),
        (
            6,
            "0 0 0 0 x 0",
            "line 6: x: 0 does not fit its field, 1..512",
        ),
        (
            6,
            "0 0 0 0 x 512",
            "line 6: this makes 513 cells, and 512 is the most",
        ),
        (6, "left wall", "line 6: 2 values, but a row has 4"),
    ];
    for (line, text, words) in cases {
        let answer = fed(&["make", "-", "-"], with_line(line, text).as_bytes());
        assert_eq!(answer.status, 1, "{text}");
        assert!(answer.bytes.is_empty());
        assert!(answer.errors.contains(words), "{text}: {}", answer.errors);
    }
}

#[test]
fn tables_that_end_early() {
    let cases = [
        ("", "line 1: the header lacks a line 'cell_length ..'"),
        (
            "cell_length 1000\nleft wall\n",
            "line 3: the header lacks a line 'right ..'",
        ),
        (
            "cell_length 1000\nleft wall\nright wall\n",
            "line 4: the line 'cells' and the rows of the cells are missing",
        ),
        (
            "cell_length 1000\nleft wall\nright wall\ncells\n",
            "refused 2: 0 cells, outside 1..512",
        ),
    ];
    for (table, words) in cases {
        let answer = fed(&["make", "-", "-"], table.as_bytes());
        assert_eq!(answer.status, 1);
        assert!(answer.errors.contains(words), "{}", answer.errors);
    }
}

#[test]
fn what_is_no_text_is_told() {
    let answer = fed(&["make", "-", "-"], &[0xff, 0xfe, 0]);
    assert_eq!(answer.status, 1);
    assert!(answer.errors.contains("not text"));
}

#[test]
fn a_refused_table_writes_nothing_and_says_what_inspect_says() {
    let table = with_line(6, "0 4000001 0 0");
    let sheet = file("make_refused.sheet");
    let answer = fed(&["make", "-", text(&sheet)], table.as_bytes());
    assert_eq!(answer.status, 1);
    assert!(!sheet.exists());
    assert!(
        answer.errors.contains("cell 1 is on line 6"),
        "{}",
        answer.errors
    );
    let draft = table::read(&table).expect("it reads").record.draft_sheet();
    let inspected = fed(&["inspect", "-"], &draft);
    assert!(inspected
        .text()
        .starts_with("refused 7: cell 1: depth 4000001 is above 4000000\n"));
    assert!(
        answer.errors.contains(inspected.text().trim_end()),
        "{}",
        answer.errors
    );
}

#[test]
fn making_what_was_shown_gives_the_sheet_again() {
    let mut dice = Dice(11);
    for cells in [1, 2, 3, 40, 512].repeat(8) {
        let sheet = dice.record(cells).draft_sheet();
        let shown = fed(&["show", "-"], &sheet);
        assert_eq!(shown.status, 0, "{}", shown.errors);
        let made = fed(&["make", "-", "-"], &shown.bytes);
        assert_eq!(made.status, 0, "{}", made.errors);
        assert_eq!(made.bytes, sheet);
    }
}

#[test]
fn reading_what_was_written_gives_the_record_again() {
    let mut dice = Dice(13);
    for _ in 0..2000 {
        let record = dice.record(30);
        let read = table::read(&table::write(&record)).expect("it reads");
        assert_eq!(read.record, record);
        assert_eq!(read.lines.len(), record.cells());
    }
}

#[test]
fn a_table_in_the_place_of_a_sheet_is_told() {
    let hint = "\n  this looks like a table: `canal make` it first\n";
    let calls: [&[&str]; 4] = [
        &["inspect", "-"],
        &["show", "-"],
        &["run", "-", "--for", "1s"],
        &["plot", "-", "-"],
    ];
    for arguments in calls {
        let answer = fed(arguments, TWO_CELLS.as_bytes());
        assert_eq!(answer.status, 1, "{arguments:?}");
        let words = format!("{}{}", answer.text(), answer.errors);
        assert!(words.contains("refused 1: edition "), "{words}");
        assert!(words.ends_with(hint), "{words}");
    }
}

#[test]
fn what_looks_like_a_table() {
    for table in [TWO_CELLS, "\u{feff}cells\r\n", "0 1 2 3\n", "cell"] {
        assert!(table::looks_like_one(table.as_bytes()), "{table}");
    }
    let picture = canal::plot::chart("any", &canal::record::Record::new(2)).svg();
    let others: [&[u8]; 6] = [
        b"",
        b"\xff\xfecells\n",
        b"cells\0\n",
        &[1; 90],
        &two_cells(),
        picture.as_bytes(),
    ];
    for other in others {
        assert!(!table::looks_like_one(other), "{other:?}");
    }
}

#[test]
fn a_refused_sheet_is_not_shown() {
    let answer = fed(&["show", "-"], b"");
    assert_eq!(answer.status, 1);
    assert!(answer.bytes.is_empty());
    assert!(
        answer.errors.contains("refused 1: the sheet has 0 bytes"),
        "{}",
        answer.errors
    );
}
