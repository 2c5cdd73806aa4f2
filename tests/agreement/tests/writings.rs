//! Writing against the second implementation: the answer and every byte of the output, after refusals as well. Then the round trip: what was
//! written opens as the record, and a sheet in the writer's order is written again byte for byte.

use agreement::both::{broken, same_opening, same_writing, Broken};
use agreement::sheets::{lent, Opening};
use reference::random::{cell_count, kinds, record_of, Random, Record, COLUMN_ORDERS};
use reference::record::{Book, MOST_CELLS};
use reference::sheet::sheet_length;
use std::collections::{BTreeMap, BTreeSet};

/// An output of this many bytes, none of them a likely one.
fn output(r: &mut Random, bytes: usize) -> Vec<u8> {
    (0..bytes).map(|_| r.below(256) as u8).collect()
}

/// A record of n cells with nothing carried; one time in two it has a ledger.
fn writable(r: &mut Random, n: usize) -> Record {
    let kinds = kinds(r);
    let record = record_of(r, n, kinds, false);
    if r.one_in(2) {
        return record;
    }
    Record {
        book: Book::default(),
        ..record
    }
}

fn cells(r: &mut Random) -> usize {
    if r.one_in(60) {
        MOST_CELLS
    } else {
        cell_count(r)
    }
}

/// A record with nothing carried is written, into an output that may be longer than the sheet, and opens as that record with an empty ledger;
/// the bytes behind the sheet are as they came. The opened record is written again byte for byte.
#[test]
fn records_come_back() {
    let mut r = Random::new(61);
    let (mut longer, mut lengths) = (0, BTreeSet::new());
    for _ in 0..22_000 {
        let n = cells(&mut r);
        let record = writable(&mut r, n);
        let sheet = sheet_length(n);
        let more = r.pick(&[0, 0, 1, 7, 24, 1_000]);
        let came = output(&mut r, sheet + more);
        let (refusal, out) = same_writing(&record, &came);
        assert_eq!(refusal, 0, "{record:?}");
        assert_eq!(out[sheet..], came[sheet..], "the bytes behind the sheet");
        let expected = Record {
            book: Book::default(),
            ..record
        };
        let opened = same_opening(&out[..sheet], &lent(n)).expect("a written sheet opens");
        assert_eq!(opened, expected);
        let (refusal, again) = same_writing(&opened, &came);
        assert_eq!((refusal, again), (0, out));
        longer += u64::from(more > 0);
        lengths.insert(n);
    }
    assert!(longer >= 10_000, "{longer}");
    assert!(lengths.contains(&1) && lengths.contains(&MOST_CELLS));
}

/// A sheet that opens is written in the writer's order: byte for byte if it stood in that order, and as the same record if not.
#[test]
fn sheets_come_back() {
    let mut r = Random::new(67);
    let mut in_order = 0;
    for k in 0..6_000 {
        let order = COLUMN_ORDERS[k % COLUMN_ORDERS.len()];
        let n = cells(&mut r);
        let first = Opening::sound(&mut r, n, order);
        let opened = same_opening(&first.sheet, &first.lent).expect("a sound sheet opens");
        let came = output(&mut r, first.sheet.len() + 3);
        let (refusal, out) = same_writing(&opened, &came);
        assert_eq!(refusal, 0);
        let written = &out[..first.sheet.len()];
        let writers = Opening::of(first.record.clone(), COLUMN_ORDERS[0]);
        assert_eq!(written, writers.sheet);
        if order == COLUMN_ORDERS[0] {
            assert_eq!(written, first.sheet);
            in_order += 1;
        }
    }
    assert_eq!(in_order, 250);
}

/// The first number of the list that applies: 4 to 9 and 16 before 14, 14 before 15; 15 up to the last byte.
#[test]
fn grounds_of_a_write() {
    let mut r = Random::new(71);
    let mut seen = BTreeMap::new();
    while seen.values().sum::<u64>() < 40_000 {
        let n = cell_count(&mut r);
        let record = writable(&mut r, n);
        let sheet = sheet_length(n);
        let short = r
            .pick(&[0, 1, 79, 80, sheet - 24, sheet - 1])
            .min(sheet - 1);
        let (few, enough) = (output(&mut r, short), output(&mut r, sheet));
        let mut write = |record: &Record, came: &[u8], ground: u32| {
            let (refusal, _) = same_writing(record, came);
            assert_eq!(refusal, ground, "{} bytes for {record:?}", came.len());
            *seen.entry(refusal).or_default() += 1;
        };
        write(&record, &enough, 0);
        write(&record, &few, 15);
        // one unit carried over an interface between two cells, and the same the other way
        if n > 1 {
            let i = 1 + r.below(n as u64 - 1) as usize;
            for (from, to, unit) in [(i - 1, i, 1), (i, i - 1, -1)] {
                let mut carrying = record.clone();
                let c = &mut carrying.columns;
                if c.base[from] == 0 || c.depth[from] == 0 || c.depth[to] >= 4_000_000 {
                    continue;
                }
                c.carried[i] = unit;
                c.depth[from] -= 1;
                c.depth[to] += 1;
                let fastest = 8_000 * c.depth[from] as i64;
                c.discharge[from] = c.discharge[from].clamp(-fastest, fastest);
                write(&carrying, &enough, 14);
                write(&carrying, &few, 14);
            }
        }
        for Broken { record, ground, .. } in broken(&mut r, &record) {
            write(&record, &enough, ground);
            write(&record, &few, ground);
        }
    }
    assert_eq!(
        Vec::from_iter(seen.into_keys()),
        [0, 4, 5, 6, 7, 8, 9, 14, 15, 16]
    );
}
