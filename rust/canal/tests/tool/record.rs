//! The owned record.

use crate::tools::Dice;
use canal::record::Record;
use jemmyfern::{Boundary, Refusal};

#[test]
fn the_draft_is_what_the_library_writes() {
    let mut dice = Dice(19);
    for _ in 0..500 {
        let mut record = dice.record(60);
        let sheet = record.draft_sheet();
        let mut opened = Record::open(&sheet).expect("it opens");
        assert_eq!(opened, record);
        assert_eq!(opened.to_sheet(), Ok(sheet.clone()));
        assert_eq!(record.to_sheet(), Ok(sheet));
    }
}

#[test]
fn a_value_too_great_for_its_field_is_still_refused() {
    let refused = |change: fn(&mut Record)| {
        let mut record = Record::new(2);
        change(&mut record);
        Record::open(&record.draft_sheet()).err()
    };
    assert_eq!(refused(|_| ()), None);
    assert_eq!(refused(|r| r.depth[0] = 1 << 32), Some(Refusal::Values));
    assert_eq!(refused(|r| r.bed[0] = 1 << 32), Some(Refusal::Values));
    assert_eq!(refused(|r| r.bed[1] = -(1 << 32)), Some(Refusal::Values));
    assert_eq!(
        refused(|r| r.cell_length = (1 << 32) + 1000),
        Some(Refusal::CellLength)
    );
    assert_eq!(
        refused(|r| r.boundaries[0] = Boundary::open(1 << 32)),
        Some(Refusal::Boundaries)
    );
    assert_eq!(
        refused(|r| r.boundaries[1] = Boundary::fed((1 << 32) + 1, 0, 0)),
        Some(Refusal::Boundaries)
    );
}

#[test]
fn columns_of_unequal_lengths_make_a_refused_draft() {
    let mut record = Record::new(2);
    record.mass.pop();
    assert_eq!(
        Record::open(&record.draft_sheet()).err(),
        Some(Refusal::Size)
    );
    assert_eq!(record.to_sheet(), Err(Refusal::Lengths));
}

#[test]
fn a_record_keeps_its_boundaries_and_ledger() {
    let mut record = Record::new(2);
    let boundaries = [Boundary::fed(500_000, 0, 7), Boundary::open(0)];
    record
        .with(|reach| reach.set_boundaries(boundaries))
        .expect("set");
    assert_eq!(record.boundaries, boundaries);
    record.with(|reach| reach.step(10)).expect("a step");
    assert!(record.ledger.left.water_in > 0);
    assert_eq!(record.to_sheet(), Err(Refusal::NotTransported));
    record.with(|reach| reach.transport()).expect("a transport");
    assert_eq!(record.ledger.left.mass_in, 7 * record.ledger.left.water_in);
    assert!(record.to_sheet().is_ok());
}
