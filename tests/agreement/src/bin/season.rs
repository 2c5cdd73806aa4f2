//! A season of steps on both implementations, every call compared: a small reach for a long time, the longest reach for a shorter one, both without
//! outlets and with some, without friction and with it by turns, then the same with the record damaged between calls, as memory in the field may be.
//! Optional: it takes minutes.

use agreement::both::{broken, fresh, same, Call, WALL};
use reference::random::{strickler, Random, Record};
use reference::record::{End, FED, OPEN};
use reference::Outlet;
use std::collections::BTreeMap;
use std::time::Instant;

/// What came of a season.
#[derive(Default)]
struct Season {
    calls: u64,
    /// steps with a transport before them
    transports: u64,
    /// calls by number of refusal, 0 for accepted
    numbers: BTreeMap<u32, u64>,
}

impl Season {
    fn call(&mut self, call: Call, record: &mut Record) -> u32 {
        let answer = same(call, record);
        self.calls += 1;
        self.transports += u64::from(answer.transported);
        *self.numbers.entry(answer.refusal).or_default() += 1;
        answer.refusal
    }
}

/// A canal about a metre deep over an uneven bed, fed at its head and open at its tail.
fn canal(r: &mut Random, cells: usize) -> Record {
    let list: Vec<_> = (0..cells)
        .map(|_| {
            let bed = r.between(-60_000, 60_000);
            let depth = (1_000_000 - bed) as u64;
            (bed, depth, 200 * depth as i64, 700 * depth)
        })
        .collect();
    let tail = End { kind: OPEN, ..WALL };
    fresh(5_000, [head(r), tail], &list)
}

/// The head as the gate and the dose stand: a little deeper or shallower, faster or slower, richer or poorer.
fn head(r: &mut Random) -> End {
    let depth = r.between(900_000, 1_100_000);
    End {
        kind: FED,
        depth: depth as u64,
        concentration: r.below(5_000),
        zero: 0,
        discharge: r.between(-20, 400) * depth,
    }
}

/// What an outlet wants: some millimetres per step or nothing. One that takes all of its cell leaves the discharge behind, by the paper's rules; in
/// the small reach the water then speeds up to 8 m/s and piles up until 12 stops it.
fn want(r: &mut Random) -> u64 {
    let some = r.below(3_000);
    r.pick(&[0, some, some, some])
}

/// Strickler's coefficient as weeds grow and are mown, or none. A bed rougher than these slows the canal until a low head turns the flow; then water
/// comes in at the open tail, the more the faster, by the paper's rules, until 12 stops it.
fn coefficient(r: &mut Random) -> u64 {
    let some = 40 + r.below(51);
    r.pick(&[0, some, some, some])
}

/// So many steps of the greatest length, with another head, other wants and another coefficient every thousand steps. With `damage` every hundred
/// steps a call on the record damaged in each way of grounds 4 to 9 and 16; then the damage is mended.
fn season(cells: usize, outlets: usize, steps: u64, damage: bool) {
    let mut r = Random::new(97);
    let mut record = canal(&mut r, cells);
    record.outlets = (0..outlets)
        .map(|_| Outlet::new(r.below(cells as u64), want(&mut r)))
        .collect();
    let mut rough = coefficient(&mut r);
    let mut season = Season::default();
    let begun = Instant::now();
    for k in 0..steps {
        if k % 1_000 == 999 {
            let new = [head(&mut r), record.ends[1]];
            assert_eq!(season.call(Call::SetBoundaries(new), &mut record), 0);
            record
                .outlets
                .iter_mut()
                .for_each(|o| o.want = want(&mut r));
            rough = coefficient(&mut r);
        }
        if damage && k % 100 == 50 {
            for mut b in broken(&mut r, &record) {
                let step = Call::Step(1, strickler(&mut r));
                let call = r.pick(&[step, Call::Transport, Call::Greatest]);
                assert_eq!(season.call(call, &mut b.record), b.ground);
            }
        }
        let t = agreement::calls::greatest_step(&record).t;
        assert_eq!(season.call(Call::Step(t, rough), &mut record), 0);
    }
    assert_eq!(season.call(Call::Transport, &mut record), 0);
    let drawn: u64 = record.outlets.iter().map(|o| o.water).sum();
    assert_eq!(drawn > 0, outlets > 0);
    println!(
        "{cells} cells, {outlets} outlets, {steps} steps, {}: {} calls agree, {} steps with a transport first; calls by number {:?}; {:?}; {drawn} drawn; {} s",
        if damage { "damaged between calls" } else { "undamaged" },
        season.calls,
        season.transports,
        season.numbers,
        record.book,
        begun.elapsed().as_secs()
    );
}

fn main() {
    for outlets in [0, 6] {
        season(8, outlets, 10_000_000, false);
    }
    for outlets in [0, 32] {
        season(512, outlets, 200_000, false);
    }
    season(8, 6, 10_000_000, true);
    season(512, 32, 200_000, true);
}
