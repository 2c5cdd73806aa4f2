//! Friction on random records.

use reference::flux::{interface, speed, Crossing, Water};
use reference::friction::{allowed, slowed};
use reference::random::{any_record, lend_outlets, strickler, Random, Record};
use reference::record::{FED, WALL};
use reference::{greatest_step, Columns, End, Outlet};

use crate::support::{rough_step, settle, settled, step, WALL_END};

/// One of 10..90.
fn rough(r: &mut Random) -> u64 {
    10 + r.below(81)
}

/// A sound record, in half of the cases with outlets, and a time step that meets CFL.
fn stepping(r: &mut Random) -> (Record, u64) {
    let mut record = any_record(r);
    if r.one_in(2) {
        lend_outlets(r, &mut record, true);
    }
    let Record {
        columns,
        outlets,
        x,
        ends,
        book,
    } = &record;
    let most = greatest_step(columns, outlets, *x, *ends, *book).t;
    let t = if r.one_in(3) { most } else { 1 + r.below(most) };
    (record, t)
}

fn beyond(end: &End, cell: Water) -> Water {
    match end.kind {
        FED => Water::new(cell.bed, end.depth, end.discharge),
        WALL => Water {
            speed: -cell.speed,
            ..cell
        },
        _ => cell,
    }
}

/// What crosses at interfaces 0..n.
fn crossings(record: &Record, t: u64) -> Vec<Crossing> {
    let c = &record.columns;
    let mut waters: Vec<Water> = (0..c.bed.len())
        .map(|i| Water::new(c.bed[i], c.depth[i], c.discharge[i]))
        .collect();
    let ends = [waters[0], waters[waters.len() - 1]];
    waters.insert(0, beyond(&record.ends[0], ends[0]));
    waters.push(beyond(&record.ends[1], ends[1]));
    (waters.windows(2))
        .map(|pair| interface(t, record.x, pair[0], pair[1]))
        .collect()
}

/// "q + P(left) − P(right) + S(own h* at the right) − S(own h* at the left)" of each cell
fn pushed(record: &Record, t: u64) -> Vec<i64> {
    let crossings = crossings(record, t);
    (record.columns.discharge.iter().zip(crossings.windows(2)))
        .map(|(q, pair)| {
            let [left, right] = [pair[0], pair[1]];
            q + left.push - right.push + right.still_left - left.still_right
        })
        .collect()
}

/// Every column after a step without friction; what outlets drew is seen from the list after it.
fn frictionless(before: &Record, t: u64, settles: bool, after: &[Outlet]) -> Columns {
    let (crossings, pushed) = (crossings(before, t), pushed(before, t));
    let mut record = before.clone();
    if settles {
        assert_eq!(settle(&mut record), 0);
    }
    let mut c = record.columns;
    for i in 0..pushed.len() {
        let drawn: u64 = (before.outlets.iter().zip(after))
            .filter(|(old, _)| old.is_at(i))
            .map(|(old, new)| new.water - old.water)
            .sum();
        let gain = crossings[i].water - crossings[i + 1].water - drawn as i64;
        c.depth[i] = c.depth[i]
            .checked_add_signed(gain)
            .expect("h' is 0 or more");
        let most = 8_000 * c.depth[i] as i64;
        c.discharge[i] = pushed[i].clamp(-most, most);
    }
    for (carried, crossing) in c.carried.iter_mut().zip(&crossings) {
        *carried += crossing.water;
    }
    c
}

/// The root by halving, away from the list.
fn root(k: u64) -> i128 {
    let (mut low, mut high) = (0, 100_000);
    while high - low > 1 {
        let r: i128 = (low + high) / 2;
        if r.pow(3) <= 1_000 * i128::from(k).pow(4) {
            low = r;
        } else {
            high = r;
        }
    }
    low
}

/// The paper's quotient, by sizes.
fn friction(q: i64, depth: u64, speed: i64, t: u64, strickler: u64) -> i64 {
    let d = i128::from(strickler).pow(2) * root(depth / 10_000);
    let e = 45_518 * i128::from(t) * i128::from(speed).abs() / 1_000_000;
    let left = match (strickler, d) {
        (0, _) => i128::from(q).abs(),
        (_, 0) => 0,
        _ => i128::from(q).abs() * d / (d + e),
    };
    left as i64 * q.signum()
}

#[test]
fn each_discharge_is_pushed_slowed_and_cut() {
    let mut r = Random::new(31);
    let mut seen = [0; 4];
    for _ in 0..1_500 {
        let (before, t) = stepping(&mut r);
        let strickler = if r.one_in(4) { 0 } else { rough(&mut r) };
        let mut record = before.clone();
        if rough_step(&mut record, t, strickler).refusal != 0 {
            continue;
        }
        for (i, q) in pushed(&before, t).into_iter().enumerate() {
            let (old, depth) = (&before.columns, record.columns.depth[i]);
            let old_speed = speed(old.depth[i], old.discharge[i]);
            let left = friction(q, depth, old_speed, t, strickler);
            let most = 8_000 * depth as i64;
            assert_eq!(record.columns.discharge[i], left.clamp(-most, most));
            seen[0] += u32::from(strickler == 0 && q != 0);
            seen[1] += u32::from(left != q && left > 0);
            seen[2] += u32::from(left != q && left < 0);
            seen[3] += u32::from(left != q && left.abs() > most);
        }
    }
    assert!(seen.iter().all(|&count| count > 50), "{seen:?}");
}

#[test]
fn coefficient_0_is_the_frictionless_step() {
    let mut r = Random::new(32);
    let (mut kept, mut settled) = (0, 0);
    for _ in 0..1_000 {
        let (mut record, t) = stepping(&mut r);
        let before = record.clone();
        let answer = rough_step(&mut record, t, 0);
        if answer.refusal == 0 {
            let expected = frictionless(&before, t, answer.settled, &record.outlets);
            assert_eq!(record.columns, expected);
            kept += u32::from(!answer.settled);
            settled += u32::from(answer.settled);
        }
    }
    assert!(kept > 100 && settled > 100, "{kept} {settled}");
}

#[test]
fn friction_changes_discharge_alone_and_never_its_sign() {
    let mut r = Random::new(33);
    let (mut slower, mut stopped) = (0, 0);
    for _ in 0..1_000 {
        let (mut free, t) = stepping(&mut r);
        let mut slow = free.clone();
        let answers = [step(&mut free, t), rough_step(&mut slow, t, rough(&mut r))];
        assert_eq!(answers[0], answers[1]);
        for (&q, left) in free
            .columns
            .discharge
            .iter()
            .zip(&mut slow.columns.discharge)
        {
            assert!(left.abs() <= q.abs() && *left * q.signum() >= 0);
            slower += u32::from(*left != q);
            stopped += u32::from(*left != q && *left == 0);
            *left = q;
        }
        assert_eq!(slow, free);
    }
    assert!(slower > 1_000 && stopped > 50, "{slower} {stopped}");
}

#[test]
fn size_never_grows_and_sign_never_turns() {
    let mut r = Random::new(34);
    for _ in 0..20_000 {
        let q = match r.below(4) {
            0 => r.next_u64() as i64,
            1 => r.between(-9, 9),
            _ => r.between(-50_000_000_000, 50_000_000_000),
        };
        let most = r.pick(&[9_999, 20_000, 300_000, 4_000_000]);
        let (depth, speed) = (r.below(most + 1), r.between(-8_000, 8_000));
        let t = 1 + r.below(1_000);
        let f = strickler(&mut r);
        if allowed(f) {
            let left = slowed(q, depth, speed, t, f);
            assert_eq!(left, friction(q, depth, speed, t, f));
            assert!(left.unsigned_abs() <= q.unsigned_abs());
            assert!(left == 0 || left.signum() == q.signum());
            // a smoother bed leaves no less, water without speed keeps its discharge
            assert!(f == 0 || f == 90 || left.abs() <= slowed(q, depth, speed, t, f + 1).abs());
            assert!(slowed(q, depth, 0, t, f) == if f == 0 || depth >= 10_000 { q } else { 0 });
        }
    }
}

#[test]
fn still_water_stays_still_over_any_bed() {
    let mut r = Random::new(35);
    for _ in 0..20 {
        let mut cells = [(0, 0, 0, 0); 12];
        for cell in &mut cells {
            cell.0 = r.between(-30_000, 30_000);
            cell.1 = (15_000 - cell.0).max(0) as u64;
        }
        let mut lake = settled(2_000, [WALL_END; 2], &cells);
        let before = lake.columns.clone();
        for _ in 0..10 {
            assert_eq!(rough_step(&mut lake, 300, rough(&mut r)).refusal, 0);
            assert_eq!(lake.columns, before);
        }
    }
}

#[test]
fn random_coefficients_are_of_every_kind() {
    let mut r = Random::new(36);
    let mut seen = [0; 6];
    for _ in 0..3_000 {
        let kind = match strickler(&mut r) {
            0 => 0,
            1..=9 => 1,
            10 | 90 => 2,
            11..=89 => 3,
            u64::MAX => 4,
            _ => 5,
        };
        seen[kind] += 1;
    }
    assert!(seen.iter().all(|&count| count > 20), "{seen:?}");
    assert!(seen[0] + seen[2] + seen[3] > 2_000, "{seen:?}");
}
