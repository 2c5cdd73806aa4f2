//! Transport, setting of boundaries and the greatest step against the second implementation, on sound and damaged records: the answer, every
//! column entry by entry, after refusals as well.

use agreement::both::{broken, fill_ledger, same, Call, GROUNDS};
use agreement::calls;
use reference::random::{any_record, damage_end, damage_record, end, Random, Record};
use reference::record::End;
use std::collections::BTreeMap;

/// The three calls, `new` being the boundaries to set.
fn three(new: [End; 2]) -> [Call; 3] {
    [Call::Transport, Call::SetBoundaries(new), Call::Greatest]
}

/// How often each call came out with each number, for records broken in one way or in several.
type Seen = BTreeMap<(&'static str, u32, bool), u64>;

/// All three calls on one record, `several` saying whether it was broken in more than one way.
fn all_calls(r: &mut Random, record: &Record, several: bool, seen: &mut Seen) -> [u32; 3] {
    three([end(r), end(r)]).map(|call| {
        let refusal = same(call, &mut record.clone()).refusal;
        *seen.entry((call.name(), refusal, several)).or_default() += 1;
        refusal
    })
}

/// Sound, with a full ledger, broken in each way, and in each way with a later one.
fn around(r: &mut Random, record: &Record, seen: &mut Seen) {
    all_calls(r, record, false, seen);
    let mut full = record.clone();
    fill_ledger(&mut full);
    all_calls(r, &full, false, seen);
    for b in broken(r, record) {
        let refusals = all_calls(r, &b.record, b.several, seen);
        assert_eq!(refusals, [b.ground; 3]);
    }
    // a new pair that breaks its kind, on a sound record and on one that breaks a later ground
    let mut new = [end(r), end(r)];
    let side = r.below(2) as usize;
    damage_end(r, &mut new[side]);
    assert_eq!(
        same(Call::SetBoundaries(new), &mut record.clone()).refusal,
        6
    );
    let mut later = record.clone();
    let ground = r.pick(&[7, 16, 8, 9]);
    damage_record(r, &mut later, ground);
    assert_eq!(same(Call::SetBoundaries(new), &mut later).refusal, 6);
}

#[test]
fn calls_agree_on_sound_and_damaged_records() {
    let mut r = Random::new(17);
    let mut seen = Seen::new();
    let mut made = 0;
    while made < 1_000_000 {
        let record = any_record(&mut r);
        let before: u64 = seen.values().sum();
        around(&mut r, &record, &mut seen);
        made += seen.values().sum::<u64>() - before;
    }
    for call in three([End::default(); 2]).map(Call::name) {
        for several in [false, true] {
            for ground in GROUNDS {
                assert!(
                    seen.contains_key(&(call, ground, several)),
                    "{call} {ground} {several}"
                );
            }
        }
        assert!(seen.contains_key(&(call, 0, false)), "{call} accepted");
    }
    for call in ["transport", "setting of boundaries"] {
        assert!(seen.contains_key(&(call, 13, false)), "{call} 13");
    }
}

/// A transport after a transport finds nothing to move.
#[test]
fn transporting_twice_is_transporting_once() {
    let mut r = Random::new(19);
    for _ in 0..5_000 {
        let mut record = any_record(&mut r);
        let first = calls::transport(&mut record);
        if first.refusal != 0 {
            continue;
        }
        record.book = first.book;
        let once = record.clone();
        let second = calls::transport(&mut record);
        assert_eq!(second, first);
        assert_eq!(record, once);
    }
}
