//! The program against the second implementation: the same text for every input. Then the text of document 01 and the limits of its
//! last part.

use agreement::both::{brim, fresh, greatest, two_cells, WALL};
use agreement::calls;
use agreement::sheets::{damages, several, turn_bits, Opening};
use reference::random::{cell_count, sheet_of, Random, Record, COLUMN_ORDERS};
use reference::record::{DEEPEST, FASTEST, MOST_CELLS, RICHEST};
use reference::sheet::{field, sheet_length};
use std::collections::{BTreeMap, BTreeSet};

/// The longest input that is looked at.
const LONGEST: usize = 12_376;

/// A sheet, the number of steps and t.
fn input(sheet: &[u8], count: u32, t: u32) -> Vec<u8> {
    [sheet, &count.to_le_bytes(), &t.to_le_bytes()].concat()
}

/// The text for this input, the same from both.
fn text(input: &[u8]) -> String {
    let ours = String::from_utf8(calls::program(input)).expect("plain text");
    assert_eq!(ours, reference::program(input), "of {input:?}");
    ours
}

/// The number that a text says, 0 if it is that of a run.
fn number(text: &str) -> u32 {
    match text.strip_prefix("refused ") {
        Some(rest) => rest.trim_end().parse().expect("a number"),
        None => 0,
    }
}

/// The sheet of a record in the order of the writer.
fn sheet(record: &Record) -> Vec<u8> {
    sheet_of(record, COLUMN_ORDERS[0])
}

/// What the inputs came upon.
#[derive(Default)]
struct Seen {
    inputs: u64,
    grounds: BTreeMap<u32, u64>,
    /// counts of accepted runs
    counts: BTreeSet<u32>,
    /// numbers of cells of accepted runs
    lengths: BTreeSet<usize>,
    /// places of the ledger that were not 0
    totals: BTreeSet<usize>,
    marks: BTreeMap<&'static str, u64>,
}

impl Seen {
    /// Runs the input on both and notes what it shows.
    fn run(&mut self, sheet: &[u8], count: u32, t: u32) {
        let input = input(sheet, count, t);
        let text = text(&input);
        let number = number(&text);
        self.inputs += 1;
        *self.grounds.entry(number).or_default() += 1;
        match number {
            0 => self.accepted(&text, count, t),
            11 | 12 => self.refused(sheet, t),
            _ => {}
        }
    }

    fn accepted(&mut self, text: &str, count: u32, t: u32) {
        let lines: Vec<Vec<&str>> = text.lines().map(|l| l.split(' ').collect()).collect();
        let (ledger, cells) = lines.split_last().expect("a ledger");
        self.counts.insert(count);
        self.lengths.insert(cells.len() - 1);
        self.totals.extend((1..=8).filter(|&k| ledger[k] != "0"));
        self.mark(
            "leftwards",
            cells[1..].iter().any(|l| l[2].starts_with('-')),
        );
        self.mark(
            "no step, t out of range",
            count == 0 && !(1..=1_000).contains(&t),
        );
    }

    /// A step is refused: the first one, or a later one.
    fn refused(&mut self, sheet: &[u8], t: u32) {
        let later = number(&reference::program(&input(sheet, 1, t))) == 0;
        self.mark("first step refused", !later);
        self.mark("later step refused", later);
    }

    fn mark(&mut self, mark: &'static str, shown: bool) {
        *self.marks.entry(mark).or_default() += u64::from(shown);
    }
}

/// Mostly none or a few; at the limit and beyond it now and then, also where the low half alone would be in range.
fn count(r: &mut Random, n: usize) -> u32 {
    match r.below(40) {
        0 => r.pick(&[1_001, 65_537, 1 << 31, u32::MAX]),
        1 if n < 10 => 1_000,
        2 if n < 10 => 1 + r.below(1_000) as u32,
        3..=7 => 0,
        8..=20 => 1,
        _ => 2 + r.below(6) as u32,
    }
}

/// Small, about the greatest step, and out of range.
fn time(r: &mut Random, record: &Record) -> u32 {
    let most = field(greatest(record));
    match r.below(20) {
        0 => r.pick(&[0, 1_001, 65_537, u32::MAX]),
        1 => most + 1,
        2 => 1_000,
        3 => 1 + r.below(1_000) as u32,
        4 => 1,
        5..=9 => most,
        10..=13 => 1 + r.below(most.into()) as u32,
        _ => most / 2,
    }
}

/// A sound sheet, one time in six nearly brimful.
fn sound(r: &mut Random, n: usize) -> Opening {
    let order = r.pick(&COLUMN_ORDERS);
    let opening = Opening::sound(r, n, order);
    if !r.one_in(6) {
        return opening;
    }
    let mut record = opening.record;
    brim(r, &mut record);
    Opening::of(record, order)
}

/// Runs of the sound sheet, then of damaged ones.
fn around(r: &mut Random, n: usize, seen: &mut Seen) {
    let opening = sound(r, n);
    for _ in 0..6 {
        let (count, t) = (count(r, n), time(r, &opening.record));
        seen.run(&opening.sheet, count, t);
    }
    let list = damages(r, &opening);
    for _ in 0..4 {
        let mut damaged = opening.damaged(&several(r, &list));
        if r.one_in(4) {
            damaged.sheet.truncate(r.below(200) as usize);
        }
        seen.run(&damaged.sheet, count(r, n), time(r, &opening.record));
    }
    let mut turned = opening.sheet.clone();
    turn_bits(r, &mut turned);
    seen.run(&turned, count(r, n), time(r, &opening.record));
}

/// At least 20,000 inputs, and everything that they must have come upon. The program lends the columns itself, so 4 is not among
/// the numbers; nor is 13, since 1,000 steps add no more than 1,000 times 4,000,000 to a total of water and 1,001 transports no more
/// than 1,001 times 4,000,000 times 500,000 to one of mass.
#[test]
fn programs_agree() {
    let mut r = Random::new(59);
    let mut seen = Seen::default();
    while seen.inputs < 40_000 {
        let n = cell_count(&mut r);
        around(&mut r, n, &mut seen);
    }
    for _ in 0..20 {
        around(&mut r, MOST_CELLS, &mut seen);
    }
    let grounds: Vec<u32> = seen.grounds.keys().copied().collect();
    assert_eq!(
        grounds,
        [0, 1, 2, 3, 5, 6, 7, 10, 11, 12],
        "{:?}",
        seen.grounds
    );
    assert!(seen.counts.is_superset(&(0..8).chain([1_000]).collect()));
    assert!(seen.lengths.contains(&1) && seen.lengths.contains(&MOST_CELLS));
    assert_eq!(seen.totals.len(), 8, "{:?}", seen.totals);
    assert_eq!(seen.marks.len(), 4);
    for (mark, times) in &seen.marks {
        assert!(*times > 0, "{mark}");
    }
}

/// The greatest count on the longest sheet: water at rest over an uneven bed with one wave in it.
#[test]
fn a_thousand_steps_of_512_cells() {
    let mut cells: Vec<_> = (0..512)
        .map(|i| (i % 7 - 500_000, 500_000, 0, 11 * i as u64))
        .collect();
    cells[200].1 = 700_000;
    let record = fresh(1_000, [WALL; 2], &cells);
    let text = text(&input(&sheet(&record), 1_000, 100));
    assert!(text.starts_with("cells 512\n") && text.ends_with("\nbook 0 0 0 0 0 0 0 0\n"));
}

/// Document 01: one step of 100.
#[test]
fn two_cell_run() {
    let expected = "cells 2\n\
                    0 907132 242795920 2721396\n\
                    1 192868 242795920 278604\n\
                    book 0 0 0 0 0 0 0 0\n";
    for order in COLUMN_ORDERS {
        assert_eq!(
            text(&input(&sheet_of(&two_cells(), order), 1, 100)),
            expected
        );
    }
}

/// The longest numbers, printed as the sheet has them.
#[test]
fn greatest_values_are_printed() {
    let most = (FASTEST * DEEPEST) as i64;
    let cells = [
        (0, DEEPEST, -most, RICHEST * DEEPEST),
        (0, 0, 0, 0),
        (0, DEEPEST, most, 1),
    ];
    let expected = "cells 3\n\
                    0 4000000 -32000000000 2000000000000\n\
                    1 0 0 0\n\
                    2 4000000 32000000000 1\n\
                    book 0 0 0 0 0 0 0 0\n";
    let record = fresh(1_000, [WALL; 2], &cells);
    assert_eq!(text(&input(&sheet(&record), 0, 0)), expected);
}

/// "With a count of 0, t is not looked at."
#[test]
fn no_step_takes_any_time() {
    let sheet = sheet(&two_cells());
    let expected = "cells 2\n0 1000000 0 3000000\n1 100000 0 0\nbook 0 0 0 0 0 0 0 0\n";
    for t in [0, 1, 1_000, 1_001, u32::MAX] {
        assert_eq!(text(&input(&sheet, 0, t)), expected);
    }
    for t in [0, 1_001, u32::MAX] {
        assert_eq!(text(&input(&sheet, 1, t)), "refused 10\n");
    }
}

/// "a count over 1,000, looked at after opening, is 10": no step is made, whatever t is, and the opening's number comes first.
#[test]
fn count_over_a_thousand() {
    let mut r = Random::new(61);
    let sound = Opening::of(two_cells(), COLUMN_ORDERS[7]);
    let list = damages(&mut r, &sound);
    for count in [1_001, 65_537, 1 << 31, u32::MAX] {
        for t in [0, 1, 261, u32::MAX] {
            assert_eq!(text(&input(&sound.sheet, count, t)), "refused 10\n");
        }
        // columns are lent by the program
        for damage in list.iter().filter(|damage| damage.ground != 4) {
            let damaged = sound.damaged(&[damage]).sheet;
            let expected = format!("refused {}\n", damage.ground);
            assert_eq!(text(&input(&damaged, count, 0)), expected, "{damage:?}");
        }
    }
    assert_eq!(number(&text(&input(&sound.sheet, 1_000, 100))), 0);
}

/// Inputs cut at every place: under 88 bytes there is no header, and from there on the length is not that of the sheet.
#[test]
fn cut_inputs() {
    let whole = input(&sheet(&two_cells()), 1, 100);
    for bytes in 0..whole.len() {
        let expected = if bytes < 88 {
            "refused 1\n"
        } else {
            "refused 2\n"
        };
        assert_eq!(text(&whole[..bytes]), expected, "{bytes} bytes");
    }
    for more in 1..50 {
        let long = [whole.clone(), vec![0; more]].concat();
        assert_eq!(text(&long), "refused 2\n", "{more} bytes more");
    }
}

/// "Under 8 bytes in all is 1, over 12,376 is 2", before the sheet is looked at.
#[test]
fn byte_limits_come_first() {
    for fill in [0, 1, 255] {
        for bytes in 0..=8 {
            assert_eq!(text(&vec![fill; bytes]), "refused 1\n");
        }
        assert_eq!(text(&vec![fill; LONGEST]), "refused 1\n");
        for bytes in [LONGEST + 1, LONGEST + 24, 65_536 + 136, 100_000] {
            assert_eq!(text(&vec![fill; bytes]), "refused 2\n");
        }
    }
}

/// The longest input runs, and is 2 with one byte or one cell more.
#[test]
fn longest_input() {
    for (n, expected) in [(512, 0), (513, 2)] {
        let record = fresh(1_000, [WALL; 2], &vec![(0, 1_000, 0, 1); n]);
        let mut input = input(&sheet(&record), 1, 1);
        assert_eq!(input.len(), sheet_length(n) + 8);
        assert_eq!(number(&text(&input)), expected);
        input.push(0);
        assert_eq!(text(&input), "refused 2\n");
    }
    assert_eq!(sheet_length(MOST_CELLS) + 8, LONGEST);
}
