//! What was written for speed gives what the second implementation gives, refusals included.

use crate::{fast_step, plain};
use agreement::both::{broken, greatest, Call, Outcome};
use reference::random::{any_record, strickler, Random, Record};

pub fn opponents_agree(r: &mut Random) {
    for _ in 0..2_000 {
        let sound = any_record(r);
        let most = greatest(&sound);
        let any = r.below(1_002);
        let times = [most, most, most, most + 1, any];
        let mut list: Vec<(Record, u64)> = times.map(|t| (sound.clone(), t)).into();
        // they refuse every list on ground 16, so a record with one that breaks a later ground is left out
        let broken = broken(r, &sound).into_iter();
        let broken = broken.filter(|b| b.record.outlets.is_empty() || ![8, 9].contains(&b.ground));
        list.extend(broken.map(|b| (b.record, most)));
        for (record, t) in list {
            let f = strickler(r);
            let step = Call::Step(t, f);
            agrees(step, &record, |r| plain::step(r, t, f));
            agrees(Call::Greatest, &record, |r| plain::greatest_step(r));
            agrees(Call::Transport, &record, plain::transport);
            // the one in Rust is not lent the list
            if record.outlets.is_empty() {
                agrees(step, &record, |r| fast_step(r, t, f));
            }
        }
    }
}

fn agrees<A: Into<Outcome>>(call: Call, record: &Record, opponent: impl Fn(&mut Record) -> A) {
    let (mut given, mut expected) = (record.clone(), record.clone());
    let answer: Outcome = opponent(&mut given).into();
    assert_eq!(answer, call.theirs(&mut expected), "{call:?} on {record:?}");
    assert_eq!(given, expected, "{call:?} on {record:?}");
}
