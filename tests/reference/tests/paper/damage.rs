//! Random damage is found under its own number, and the refused call changes nothing.

use reference::random::{
    any_record, cell_count, damage_columns, damage_list, damage_record, damage_sheet, kinds,
    lend_outlets, outlets_for_opening, record_of, sheet, sheet_of, strickler, Random,
    COLUMN_ORDERS,
};
use reference::{greatest_step, open, set_ends, settle, step, write, Book, Columns, End};

#[test]
fn damaged_record_is_refused_by_every_call() {
    let mut r = Random::new(17);
    for round in 0..2_100 {
        let ground = [4, 5, 6, 7, 16, 8, 9][round % 7];
        let mut record = any_record(&mut r);
        if r.one_in(2) {
            lend_outlets(&mut r, &mut record, true);
        }
        damage_record(&mut r, &mut record, ground);
        let (x, ends, book) = (record.x, record.ends, record.book);
        let (mut c, mut outlets) = (record.columns.clone(), record.outlets.clone());
        let mut out = vec![1; 12_400];
        let f = strickler(&mut r);
        let refusals = [
            greatest_step(&c, &outlets, x, ends, book).refusal,
            write(&c, &outlets, x, ends, book, &mut out).refusal,
            step(&mut c, &mut outlets, x, ends, book, 1, f).refusal,
            settle(&mut c, &mut outlets, x, ends, book).refusal,
            set_ends(&mut c, &mut outlets, x, ends, book, [End::default(); 2]).refusal,
        ];
        assert_eq!(refusals, [ground; 5], "{record:?}");
        assert_eq!((c, outlets), (record.columns, record.outlets));
        assert!(out.iter().all(|&byte| byte == 1));
    }
}

#[test]
fn damaged_sheet_does_not_open() {
    let mut r = Random::new(18);
    for round in 0..1_400 {
        let ground = 1 + round % 7;
        let n = cell_count(&mut r);
        let mut bytes = sheet(&mut r, n);
        let mut c = Columns::of_cells(n);
        c.bed.fill(5);
        c.carried.fill(6);
        if ground == 4 {
            damage_columns(&mut r, &mut c);
        } else {
            damage_sheet(&mut r, &mut bytes, ground);
        }
        let before = c.clone();
        let answer = open(&bytes, &mut c, &mut []);
        assert_eq!(answer.refusal, ground);
        assert_eq!((answer.x, answer.book), (0, Book::default()));
        assert_eq!(answer.ends, [End::default(); 2]);
        assert_eq!(c, before);
    }
}

#[test]
fn damaged_list_does_not_open() {
    let mut r = Random::new(20);
    for _ in 0..400 {
        let (n, kinds) = (cell_count(&mut r), kinds(&mut r));
        let record = record_of(&mut r, n, kinds, false);
        let bytes = sheet_of(&record, COLUMN_ORDERS[0]);
        let mut c = Columns::of_cells(n);
        let mut outlets = outlets_for_opening(&mut r, &record);
        assert_eq!(open(&bytes, &mut c, &mut outlets.clone()).refusal, 0);
        damage_list(&mut r, &mut outlets, n);
        let (came, before) = (outlets.clone(), c.clone());
        assert_eq!(open(&bytes, &mut c, &mut outlets).refusal, 16);
        assert_eq!((outlets, c), (came, before));
    }
}
