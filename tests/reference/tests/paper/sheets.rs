//! Opening and writing.

use reference::random::{
    cell_count, kinds, record_of, sheet, sheet_of, Random, Record, COLUMN_ORDERS,
};
use reference::{open, program, write, Book, Columns};

fn settled_record(r: &mut Random) -> Record {
    let (n, kinds) = (cell_count(r), kinds(r));
    record_of(r, n, kinds, false)
}

fn written(record: &Record, room: usize) -> Vec<u8> {
    let mut out = vec![0xA5; room];
    let answer = write(
        &record.columns,
        &record.outlets,
        record.x,
        record.ends,
        record.book,
        &mut out,
    );
    assert_eq!(answer.refusal, 0);
    assert_eq!((answer.ends, answer.book), (record.ends, record.book));
    out
}

/// Opens into columns that hold other values before.
fn opened(sheet: &[u8], n: usize) -> Record {
    let mut columns = Columns {
        bed: vec![7; n],
        depth: vec![7; n],
        discharge: vec![-7; n],
        nutrient: vec![7; n],
        base: vec![9; n],
        carried: vec![3; n + 1],
    };
    let answer = open(sheet, &mut columns, &mut []);
    assert_eq!(answer.refusal, 0);
    Record {
        columns,
        outlets: vec![],
        x: answer.x,
        ends: answer.ends,
        book: answer.book,
    }
}

#[test]
fn settled_record_comes_back_with_an_empty_book() {
    let mut r = Random::new(7);
    for _ in 0..200 {
        let mut record = settled_record(&mut r);
        let n = record.columns.bed.len();
        let bytes = written(&record, 80 + 24 * n);
        record.book = Book::default();
        assert_eq!(opened(&bytes, n), record);
    }
}

#[test]
fn writer_order_sheet_comes_back_byte_for_byte() {
    let mut r = Random::new(8);
    for _ in 0..200 {
        let record = settled_record(&mut r);
        let bytes = sheet_of(&record, COLUMN_ORDERS[0]);
        let back = written(&opened(&bytes, record.columns.bed.len()), bytes.len());
        assert_eq!(back, bytes);
    }
}

#[test]
fn columns_open_equally_in_every_order() {
    let mut r = Random::new(9);
    for n in [1, 2, 5, 512] {
        let kinds = kinds(&mut r);
        let mut record = record_of(&mut r, n, kinds, false);
        record.book = Book::default();
        for order in COLUMN_ORDERS {
            assert_eq!(opened(&sheet_of(&record, order), n), record);
        }
    }
}

#[test]
fn bytes_after_the_sheet_keep_their_values() {
    let mut r = Random::new(10);
    for room in [0, 1, 7, 8, 500] {
        let record = settled_record(&mut r);
        let length = 80 + 24 * record.columns.bed.len();
        let out = written(&record, length + room);
        assert_eq!(out[..length], sheet_of(&record, COLUMN_ORDERS[0]));
        assert!(out[length..].iter().all(|&byte| byte == 0xA5));
    }
}

#[test]
fn random_sheets_open() {
    let mut r = Random::new(11);
    for _ in 0..200 {
        let n = cell_count(&mut r);
        let bytes = sheet(&mut r, n);
        let record = opened(&bytes, n);
        assert_eq!(record.columns.base, record.columns.depth);
        assert!(record.columns.carried.iter().all(|&c| c == 0));
    }
}

#[test]
fn no_bytes_make_opening_or_the_program_panic() {
    let mut r = Random::new(19);
    for _ in 0..2_000 {
        let n = r.between(1, 3) as usize;
        let mut bytes = sheet(&mut r, n);
        bytes.extend([1, 0, 0, 0, 9, 0, 0, 0]);
        for _ in 0..r.below(3) {
            let at = r.below(bytes.len() as u64) as usize;
            bytes[at] = r.pick(&[0, 1, 127, 128, 255]);
        }
        if r.one_in(4) {
            bytes.truncate(r.below(100) as usize);
        }
        let text = program(&bytes);
        assert!(text.starts_with("cells ") || text.starts_with("refused "));
        let _ = open(&bytes, &mut Columns::of_cells(n), &mut []);
    }
}
