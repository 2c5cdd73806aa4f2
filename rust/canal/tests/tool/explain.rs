//! The explanation is of the library's ground, on many damaged sheets.

use crate::tools::Dice;
use canal::explain::{explain, refused};
use canal::record::Record;

/// The four columns laid out in any order.
fn shuffled(record: &Record, dice: &mut Dice) -> Vec<u8> {
    let written = record.draft_sheet();
    let cells = record.cells();
    let widths = [4, 4, 8, 8];
    let starts = [80, 80 + 4 * cells, 80 + 8 * cells, 80 + 16 * cells];
    let mut order = [0, 1, 2, 3];
    for i in (1..4).rev() {
        order.swap(i, dice.to(i as u64) as usize);
    }
    let mut sheet = written[..80].to_vec();
    for column in order {
        let offset = sheet.len() as u32;
        sheet[16 + 4 * column..20 + 4 * column].copy_from_slice(&offset.to_le_bytes());
        let from = starts[column];
        sheet.extend(&written[from..from + widths[column] * cells]);
    }
    sheet
}

/// A number that is near some limit, or any.
fn telling(dice: &mut Dice) -> u64 {
    let limits = [
        0,
        1,
        2,
        80,
        100,
        512,
        8_000,
        100_000,
        500_000,
        4_000_000,
        100_000_000,
        32_000_000_000,
        u32::MAX.into(),
        u64::MAX / 2,
    ];
    let limit = limits[dice.to(limits.len() as u64 - 1) as usize];
    match dice.to(5) {
        0 => dice.next(),
        1 => limit.wrapping_neg(),
        2 => limit.wrapping_sub(1),
        3 => limit + 1,
        4 => dice.to(200),
        _ => limit,
    }
}

fn damage(sheet: &mut Vec<u8>, dice: &mut Dice) {
    let number = telling(dice).to_le_bytes();
    match dice.to(9) {
        0 => sheet.truncate(dice.to(sheet.len() as u64) as usize),
        1 => sheet.extend(&number[..1 + dice.to(7) as usize]),
        2 => put(sheet, 4 * dice.to(19) as usize, &number[..4]),
        // the offsets and the boundaries have the most rules
        3 => put(sheet, 16 + 4 * dice.to(3) as usize, &number[..4]),
        4 => put(sheet, 32 + 4 * dice.to(11) as usize, &number[..4]),
        5 => put(sheet, [48, 72][dice.to(1) as usize], &number),
        6 => nudge(sheet, dice),
        7 => put(sheet, 80 + 4 * dice.to(60) as usize, &number[..4]),
        8 => put(sheet, 80 + 8 * dice.to(60) as usize, &number),
        _ => {
            let at = dice.to(sheet.len() as u64) as usize;
            put(sheet, at, &number[..1]);
        }
    }
}

/// Moves a column by a few bytes.
fn nudge(sheet: &mut [u8], dice: &mut Dice) {
    let at = 16 + 4 * dice.to(3) as usize;
    if let Some(offset) = canal::layout::u32_at(sheet, at) {
        let moved = offset.wrapping_add_signed(dice.within(9) as i32);
        put(sheet, at, &moved.to_le_bytes());
    }
}

fn put(sheet: &mut [u8], at: usize, bytes: &[u8]) {
    if let Some(place) = sheet.get_mut(at..at + bytes.len()) {
        place.copy_from_slice(bytes);
    }
}

#[test]
fn the_ground_is_the_librarys() {
    let mut dice = Dice(17);
    let mut seen = [0; 8];
    for _ in 0..60_000 {
        let record = dice.record(8);
        let mut sheet = shuffled(&record, &mut dice);
        for _ in 0..dice.to(2) {
            damage(&mut sheet, &mut dice);
        }
        let ground = Record::open(&sheet).err();
        let explained = explain(&sheet).map(|e| e.ground);
        assert_eq!(explained, ground, "{sheet:?}");
        if let Some(ground) = ground {
            let words = refused(&sheet, ground);
            assert!(words.starts_with(&format!("refused {}: ", ground.number())));
            assert!(words.ends_with(ground.words()));
        }
        seen[ground.map_or(0, |g| g.number()) as usize] += 1;
    }
    // ground 4 is of lent columns, which always fit here
    for ground in [0, 1, 2, 3, 5, 6, 7] {
        assert!(seen[ground] > 200, "ground {ground}: {seen:?}");
    }
    assert_eq!(seen[4], 0);
}
