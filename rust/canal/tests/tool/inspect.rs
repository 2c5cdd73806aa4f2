//! What is said of sheets, opened and refused: one past each limit, and at the limit.

use crate::tools::*;
use canal::record::Record;
use jemmyfern::Boundary;

/// Three wet cells between walls.
fn base() -> Record {
    let mut record = Record::new(3);
    record.depth = vec![1_000, 2_000, 3_000];
    record.base = record.depth.clone();
    record
}

fn sheet(change: impl FnOnce(&mut Record)) -> Vec<u8> {
    let mut record = base();
    change(&mut record);
    record.draft_sheet()
}

/// The base sheet with a number of the header changed.
fn header(at: usize, number: u32) -> Vec<u8> {
    let mut sheet = base().draft_sheet();
    sheet[at..at + 4].copy_from_slice(&number.to_le_bytes());
    sheet
}

fn left(boundary: Boundary) -> Vec<u8> {
    sheet(|r| r.boundaries[0] = boundary)
}

fn right(boundary: Boundary) -> Vec<u8> {
    sheet(|r| r.boundaries[1] = boundary)
}

#[test]
fn what_opens_is_described() {
    let sheet = sheet(|r| {
        r.boundaries = [Boundary::open(5), Boundary::fed(500_000, -2_000_000, 1_200)];
        r.bed = vec![-1_500_000, 0, 20_000];
        r.mass[1] = 5_000;
        r.depth[0] = 0;
    });
    let answer = fed(&["inspect", "-"], &sheet);
    assert_eq!((answer.status, &*answer.errors), (0, ""));
    let lines = [
        "3 cells of 1000 mm (at most 512), 3 m in all; 152 bytes, columns in the writer's order",
        "left boundary  open; water coming in has 5 µg/l",
        "right boundary fed with depth 500000 µm (0.5 m), discharge -2000000 µm·mm/s (-0.002 m²/s), 1200 µg/l",
        "bed level      -1500000 to 20000 µm (-1.5 to 0.02 m)",
        "depth          0 to 3000 µm (0 to 0.003 m); 1 cell dry",
        "discharge      0 to 0 µm·mm/s (0 to 0 m²/s)",
        "concentration  0 to 2.5 µg/l",
        "water held     5000 µm of a cell = 0.005 m³ per metre of width",
        "mass held      5000 grains = 0.000005 g per metre of width",
        "greatest step  368 ms, set by the right boundary",
    ];
    assert_eq!(answer.text(), lines.join("\n") + "\n");
}

/// What is said of the greatest step.
fn greatest_step(sheet: &[u8]) -> String {
    let answer = fed(&["inspect", "-"], sheet);
    assert_eq!(answer.status, 0, "{}", answer.text());
    let line = answer.text().lines().last().expect("lines");
    line.replace("greatest step  ", "")
}

#[test]
fn the_longest_step_is_not_set_by_slow_water() {
    let slow = "1000 ms, the longest allowed (fastest: ";
    let cases = [
        (sheet(|_| ()), format!("{slow}cell 2)")),
        (
            sheet(|r| r.depth[2] = 1_000_000),
            "260 ms, set by cell 2".into(),
        ),
        (
            sheet(|r| r.depth.fill(0)),
            "1000 ms, the longest allowed (all dry)".into(),
        ),
        // an open boundary has no water of its own, a fed one has
        (
            Record {
                boundaries: [Boundary::open(5); 2],
                ..Record::new(2)
            }
            .draft_sheet(),
            "1000 ms, the longest allowed (all dry)".into(),
        ),
        (
            Record {
                boundaries: [Boundary::WALL, Boundary::fed(1_000, 0, 0)],
                ..Record::new(2)
            }
            .draft_sheet(),
            format!("{slow}the right boundary)"),
        ),
    ];
    for (sheet, words) in cases {
        assert_eq!(greatest_step(&sheet), words);
    }
}

/// Still water a metre deep runs at 3836 mm/s, a fed boundary's as a cell's.
#[test]
fn among_equals_the_highest_place_is_named() {
    let fed = Boundary::fed(1_000_000, 0, 0);
    let cases: [(&[usize], [Boundary; 2], &str); 6] = [
        (&[0, 1, 2], [Boundary::WALL; 2], "cell 2"),
        (&[0, 1], [Boundary::open(0); 2], "cell 1"),
        (&[0], [fed, Boundary::WALL], "cell 0"),
        (&[0, 2], [Boundary::WALL, fed], "the right boundary"),
        (&[], [fed, fed], "the right boundary"),
        (&[], [fed, Boundary::WALL], "the left boundary"),
    ];
    for (deep, boundaries, place) in cases {
        let sheet = sheet(|r| {
            deep.iter().for_each(|&i| r.depth[i] = 1_000_000);
            r.boundaries = boundaries;
        });
        assert_eq!(greatest_step(&sheet), format!("260 ms, set by {place}"));
    }
}

#[test]
fn other_orders_of_the_columns_open() {
    let mut sheet = base().draft_sheet();
    // masses first, then discharges, bed levels, depths
    for (at, offset) in [(16, 128u32), (20, 140), (24, 104), (28, 80)] {
        sheet[at..at + 4].copy_from_slice(&offset.to_le_bytes());
    }
    sheet[80..].fill(0);
    let answer = fed(&["inspect", "-"], &sheet);
    assert_eq!(answer.status, 0, "{}", answer.text());
    assert!(answer
        .text()
        .contains("columns in another order than the writer's"));
}

/// The first line of what is said of a refused sheet.
fn told(sheet: &[u8]) -> String {
    let answer = fed(&["inspect", "-"], sheet);
    assert_eq!(
        (answer.status, &*answer.errors),
        (1, ""),
        "{}",
        answer.text()
    );
    let first = answer.text().lines().next().unwrap_or("");
    first.to_string()
}

fn assert_told(cases: &[(Vec<u8>, &str)]) {
    for (sheet, words) in cases {
        assert_eq!(told(sheet), *words);
    }
}

#[test]
fn grounds_1_and_2() {
    let base = base().draft_sheet();
    let mut longer = base.clone();
    longer.push(0);
    assert_told(&[
        (
            Vec::new(),
            "refused 1: the sheet has 0 bytes, and its header alone wants 80",
        ),
        (
            base[..79].to_vec(),
            "refused 1: the sheet has 79 bytes, and its header alone wants 80",
        ),
        (header(0, 2), "refused 1: edition 2 is not 1"),
        (header(8, 0), "refused 2: 0 cells, outside 1..512"),
        (header(8, 513), "refused 2: 513 cells, outside 1..512"),
        (
            header(8, 4),
            "refused 2: the length field says 152, but a sheet of 4 cells has 176 bytes",
        ),
        (
            header(4, 151),
            "refused 2: the length field says 151, but 152 bytes are given",
        ),
        (
            base[..151].to_vec(),
            "refused 2: the length field says 152, but 151 bytes are given",
        ),
        (
            longer,
            "refused 2: the length field says 152, but 153 bytes are given",
        ),
        (
            Record::new(513).draft_sheet(),
            "refused 2: 513 cells, outside 1..512",
        ),
    ]);
    assert_eq!(
        fed(&["inspect", "-"], &Record::new(512).draft_sheet()).status,
        0
    );
}

#[test]
fn ground_3() {
    assert_told(&[
        (
            header(16, 79),
            "refused 3: the offset of the bed levels, 79, is under 80",
        ),
        (
            header(28, 129),
            "refused 3: the masses (bytes 129..153) pass the sheet's end (152)",
        ),
        (
            header(24, u32::MAX),
            "refused 3: the discharges (bytes 4294967295..4294967319) pass the sheet's end (152)",
        ),
        (
            header(20, 91),
            "refused 3: the bed levels (bytes 80..92) and the depths (91..103) overlap",
        ),
        (
            header(24, 103),
            "refused 3: the depths (bytes 92..104) and the discharges (103..127) overlap",
        ),
        (
            header(28, 127),
            "refused 3: the discharges (bytes 104..128) and the masses (127..151) overlap",
        ),
    ]);
}

#[test]
fn ground_5() {
    assert_told(&[
        (header(12, 99), "refused 5: cell length 99 is below 100"),
        (
            header(12, 100_001),
            "refused 5: cell length 100001 is above 100000",
        ),
    ]);
    for length in [100, 100_000] {
        assert_eq!(fed(&["inspect", "-"], &header(12, length)).status, 0);
    }
}

#[test]
fn ground_6() {
    let wall = Boundary::WALL;
    let open = Boundary::open(0);
    let fed_boundary = Boundary::fed;
    assert_told(&[
        (left(Boundary { kind: 3, ..wall }), "refused 6: left boundary: kind 3 is none of 0 wall, 1 open, 2 fed"),
        (right(Boundary { depth: 1, ..wall }), "refused 6: right boundary: depth of a wall is 1, not 0"),
        (left(Boundary { discharge: -1, ..wall }), "refused 6: left boundary: discharge of a wall is -1, not 0"),
        (left(Boundary { concentration: 1, ..wall }), "refused 6: left boundary: concentration of a wall is 1, not 0"),
        (left(Boundary { reserved: 9, ..wall }), "refused 6: left boundary: the reserved field is 9, not 0"),
        (right(Boundary { depth: 1, ..open }), "refused 6: right boundary: depth of an open boundary is 1, not 0"),
        (right(Boundary { discharge: 1, ..open }), "refused 6: right boundary: discharge of an open boundary is 1, not 0"),
        (right(Boundary::open(500_001)), "refused 6: right boundary: concentration 500001 is above 500000"),
        (left(fed_boundary(0, 0, 0)), "refused 6: left boundary: depth of a fed boundary 0 is below 1"),
        (left(fed_boundary(4_000_001, 0, 0)), "refused 6: left boundary: depth of a fed boundary 4000001 is above 4000000"),
        (left(fed_boundary(2, 16_001, 0)), "refused 6: left boundary: discharge 16001 is above 16000 (8000 times the depth 2)"),
        (right(fed_boundary(2, -16_001, 0)), "refused 6: right boundary: discharge -16001 is below -16000 (8000 times the depth 2)"),
        (right(fed_boundary(1, i64::MIN, 0)), "refused 6: right boundary: discharge -9223372036854775808 is below -8000 (8000 times the depth 1)"),
        (right(fed_boundary(1, 0, 500_001)), "refused 6: right boundary: concentration 500001 is above 500000"),
    ]);
    for boundary in [
        Boundary::open(500_000),
        fed_boundary(1, 8_000, 500_000),
        fed_boundary(4_000_000, -32_000_000_000, 0),
    ] {
        assert_eq!(fed(&["inspect", "-"], &left(boundary)).status, 0);
        assert_eq!(fed(&["inspect", "-"], &right(boundary)).status, 0);
    }
}

#[test]
fn ground_7() {
    assert_told(&[
        (sheet(|r| r.bed[0] = 100_000_001), "refused 7: cell 0: bed level 100000001 is above 100000000"),
        (sheet(|r| r.bed[1] = -100_000_001), "refused 7: cell 1: bed level -100000001 is below -100000000"),
        (sheet(|r| r.depth[2] = 4_000_001), "refused 7: cell 2: depth 4000001 is above 4000000"),
        (sheet(|r| r.discharge[0] = 8_000_001), "refused 7: cell 0: discharge 8000001 is above 8000000 (8000 times the depth 1000)"),
        (sheet(|r| r.discharge[0] = -8_000_001), "refused 7: cell 0: discharge -8000001 is below -8000000 (8000 times the depth 1000)"),
        (sheet(|r| r.mass[1] = 1_000_000_001), "refused 7: cell 1: mass 1000000001 is above 1000000000 (500000 times the depth 2000)"),
        (sheet(|r| r.mass[1] = u64::MAX), "refused 7: cell 1: mass 18446744073709551615 is above 1000000000 (500000 times the depth 2000)"),
    ]);
    let most = sheet(|r| {
        (r.bed[0], r.bed[1]) = (100_000_000, -100_000_000);
        r.depth[0] = 4_000_000;
        (r.discharge[0], r.discharge[1]) = (32_000_000_000, -16_000_000);
        r.mass[0] = 2_000_000_000_000;
    });
    assert_eq!(fed(&["inspect", "-"], &most).status, 0);
}

#[test]
fn all_faults_of_the_ground_are_told_or_counted() {
    let mut record = Record::new(20);
    record.mass.fill(1);
    let answer = fed(&["inspect", "-"], &record.draft_sheet());
    assert_eq!(answer.status, 1);
    let text = answer.text();
    assert_eq!(text.matches("also: cell").count(), 7, "{text}");
    assert!(
        text.contains("  and 12 more\n  ground 7: a cell value is out of range\n"),
        "{text}"
    );
}
