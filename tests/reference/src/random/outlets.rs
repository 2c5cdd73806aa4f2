//! Random lists of outlets, sound or damaged.

use super::{Random, Record};
use crate::greatest::greatest_step;
use crate::outlet::{drawn_at, Outlet, MOST_OUTLETS};
use crate::record::{outflow, Columns, DEEPEST, FASTEST, MOST_TOTAL};
use crate::step::available;

/// Lends a list of 0 to 32 outlets to a sound record; it stays sound. Wants lie around what its
/// greatest step can give. With `drawing` most have drawn water since the settling, and the depths
/// are less by it.
pub fn lend_outlets(r: &mut Random, record: &mut Record, drawing: bool) {
    let count = outlet_count(r);
    record.outlets = cells(r, &record.columns, count)
        .into_iter()
        .map(|cell| Outlet::new(cell, 0))
        .collect();
    if drawing {
        (0..count).for_each(|k| draw(r, record, k));
    }
    fill_totals(r, &mut record.outlets);
    let t = greatest(record);
    choose_wants(r, record, t);
}

/// A list to lend to the opening of this settled record's sheet. An opening does not look at drawn
/// water and totals, so they may be anything.
pub fn outlets_for_opening(r: &mut Random, record: &Record) -> Vec<Outlet> {
    let mut opened = record.clone();
    lend_outlets(r, &mut opened, false);
    for o in &mut opened.outlets {
        for field in [&mut o.drawn, &mut o.water, &mut o.nutrient] {
            *field = r.pick(&[0, 1, DEEPEST, 1 << 32, MOST_TOTAL + 1, 1 << 63, u64::MAX]);
        }
    }
    opened.outlets
}

fn outlet_count(r: &mut Random) -> usize {
    let most = r.pick(&[1, 2, 3, 8, MOST_OUTLETS as i64]);
    match r.below(10) {
        0 => 0,
        1 => MOST_OUTLETS,
        _ => r.between(1, most) as usize,
    }
}

/// Cells of a list: all in one, at the ends of the reach, in few with a dry one, or anywhere.
fn cells(r: &mut Random, c: &Columns, count: usize) -> Vec<u64> {
    let n = c.bed.len() as u64;
    let one = r.below(n);
    let dry = c.depth.iter().position(|&h| h == 0);
    let few = [0, n - 1, one, dry.map_or(one, |i| i as u64)];
    let style = r.below(5);
    (0..count)
        .map(|_| match style {
            0 => one,
            1 => few[3],
            2 => r.pick(&few[..2]),
            3 => r.pick(&few),
            _ => r.below(n),
        })
        .collect()
}

/// How much more the outlets of cell i may have drawn: right + left + drawn ≤ b.
fn room(record: &Record, i: usize) -> u64 {
    let c = &record.columns;
    c.base[i] - outflow(c.carried[i], c.carried[i + 1]) - drawn_at(&record.outlets, i) as u64
}

/// One outlet draws water that it may have drawn. All that came in is left in the cell at least,
/// so the depth allows it.
fn draw(r: &mut Random, record: &mut Record, k: usize) {
    let room = room(record, record.outlets[k].place());
    let any = r.below(room + 1);
    let drawn = r.pick(&[0, 1.min(room), any, any / 8, room]);
    take(record, k, drawn);
}

/// Moves water of a cell to one of its outlets; the discharge follows the depth.
fn take(record: &mut Record, k: usize, water: u64) {
    let i = record.outlets[k].place();
    let c = &mut record.columns;
    record.outlets[k].drawn += water;
    c.depth[i] -= water;
    let most = (FASTEST * c.depth[i]) as i64;
    c.discharge[i] = c.discharge[i].clamp(-most, most);
}

/// Sound totals, now and then near or at 10^18.
fn fill_totals(r: &mut Random, outlets: &mut [Outlet]) {
    let (room, few) = match r.below(6) {
        0 => (DEEPEST, 4),
        1 => (3_000_000_000_000, 4),
        2 => (0, 8),
        3 => (MOST_TOTAL, 1),
        _ => return,
    };
    for o in outlets {
        for total in [&mut o.water, &mut o.nutrient] {
            if r.one_in(few) {
                *total = MOST_TOTAL - r.below(room + 1);
            }
        }
    }
}

fn greatest(record: &Record) -> u64 {
    let Record {
        columns,
        outlets,
        x,
        ends,
        book,
    } = record;
    let answer = greatest_step(columns, outlets, *x, *ends, *book);
    assert_eq!(answer.refusal, 0, "{record:?}");
    answer.t
}

/// New wants around what a step of t can give; t meets CFL. "only the wants may be changed in
/// between"
pub fn choose_wants(r: &mut Random, record: &mut Record, t: u64) {
    let available = available(&record.columns, record.x, &record.ends, t);
    for (i, &most) in available.iter().enumerate() {
        let mut here: Vec<&mut u64> = (record.outlets.iter_mut().filter(|o| o.is_at(i)))
            .map(|o| &mut o.want)
            .collect();
        match r.below(4) {
            0 => split(r, &mut here, most),
            1 => split(r, &mut here, (most + 1).min(DEEPEST)),
            _ => here.iter_mut().for_each(|want| **want = any_want(r, most)),
        }
    }
}

fn any_want(r: &mut Random, available: u64) -> u64 {
    let (less, any) = (r.below(available + 1), r.below(DEEPEST + 1));
    let more = (available + 1).min(DEEPEST);
    r.pick(&[0, 1, available, more, less, less / 8, any, DEEPEST])
}

/// Wants that sum to this.
fn split(r: &mut Random, wants: &mut [&mut u64], sum: u64) {
    let mut left = sum;
    for (k, want) in wants.iter_mut().enumerate().rev() {
        **want = match (k, r.below(3)) {
            (0, _) => left,
            (_, 0) => left / (k as u64 + 1),
            _ => r.below(left + 1),
        };
        left -= **want;
    }
}

/// Breaks ground 16 of a list for n cells.
pub fn damage_list(r: &mut Random, outlets: &mut Vec<Outlet>, n: usize) {
    let n = n as u64;
    if r.one_in(3) {
        let length = r.pick(&[MOST_OUTLETS + 1, MOST_OUTLETS + 1, 2 * MOST_OUTLETS, 300]);
        outlets.resize(length, Outlet::new(r.below(n), 0));
        return;
    }
    if outlets.is_empty() {
        outlets.push(Outlet::new(r.below(n), 1));
    }
    let k = r.below(outlets.len() as u64) as usize;
    let o = &mut outlets[k];
    // the last of each would be sound if it were cut to 32 bits
    if r.one_in(2) {
        o.cell = r.pick(&[n, n + 1, 1 << 32, 1 << 63, u64::MAX, o.cell + (1 << 32)]);
    } else {
        let more = o.want + (1 << 32);
        o.want = r.pick(&[DEEPEST + 1, 1 << 32, 1 << 63, u64::MAX, more]);
    }
}

/// Breaks ground 8 by the drawn water of one outlet; the list must not be empty.
pub(super) fn damage_drawn(r: &mut Random, record: &mut Record) {
    let k = r.below(record.outlets.len() as u64) as usize;
    match r.below(5) {
        0 if draw_past_base(record, k) => (),
        1 if wrap_drawn(record, k) => (),
        2 if record.outlets[k].drawn > 0 => record.outlets[k].drawn -= 1,
        3 => record.outlets[k].drawn += 1,
        _ => record.outlets[k].drawn += r.pick(&[1 << 32, 1 << 63]),
    }
}

/// One more than the base depth allows, the depth following: only that bound breaks.
fn draw_past_base(record: &mut Record, k: usize) -> bool {
    let i = record.outlets[k].place();
    let over = room(record, i) + 1;
    if record.columns.depth[i] < over {
        return false;
    }
    take(record, k, over);
    true
}

/// 2^63 more drawn by each of two outlets of one cell: cut to 64 bits their sum would be right.
fn wrap_drawn(record: &mut Record, k: usize) -> bool {
    let outlets = &mut record.outlets;
    let cell = outlets[k].cell;
    let beside = (0..outlets.len()).find(|&j| j != k && outlets[j].cell == cell);
    if beside.is_none() && outlets.len() == MOST_OUTLETS {
        return false;
    }
    let j = beside.unwrap_or(outlets.len());
    if j == outlets.len() {
        outlets.push(Outlet::new(cell, 0));
    }
    outlets[k].drawn += 1 << 63;
    outlets[j].drawn += 1 << 63;
    true
}

/// A total over 10^18 (ground 9); the list must not be empty.
pub(super) fn damage_totals(r: &mut Random, outlets: &mut [Outlet]) {
    let k = r.below(outlets.len() as u64) as usize;
    let over = r.pick(&[MOST_TOTAL + 1, 1 << 63, u64::MAX]);
    if r.one_in(2) {
        outlets[k].water = over;
    } else {
        outlets[k].nutrient = over;
    }
}

/// A sound record with one thing changed in its list, in each of the ways below, and the ground
/// that every call on it is then refused on: 16, 8 or 9, or 0 where the list is still sound. An
/// opening given such a list finds 16 or nothing.
pub fn odd_outlets(r: &mut Random, record: &Record) -> Vec<(u32, Record)> {
    let mut sound = record.clone();
    let n = sound.columns.bed.len() as u64;
    if sound.outlets.is_empty() {
        sound.outlets.push(Outlet::new(r.below(n), 1));
    }
    let k = r.below(sound.outlets.len() as u64) as usize;
    let mut list = odd_lengths(r, &sound);
    list.extend(odd_fields(&sound, k));
    list.extend(odd_drawn(&sound, k));
    list
}

/// 32 and 33 entries.
fn odd_lengths(r: &mut Random, sound: &Record) -> Vec<(u32, Record)> {
    let cell = r.below(sound.columns.bed.len() as u64);
    let of_length = |length: usize| {
        let mut odd = sound.clone();
        odd.outlets.resize(length, Outlet::new(cell, 0));
        odd
    };
    vec![
        (0, of_length(MOST_OUTLETS)),
        (16, of_length(MOST_OUTLETS + 1)),
    ]
}

/// Each field of entry k at its limit, one beyond, 2^32 and 2^63; drawn water has no limit of its
/// own, see `odd_drawn`.
fn odd_fields(sound: &Record, k: usize) -> Vec<(u32, Record)> {
    let with = |change: &dyn Fn(&mut Outlet)| {
        let mut odd = sound.clone();
        change(&mut odd.outlets[k]);
        odd
    };
    let n = sound.columns.bed.len() as u64;
    let mut list = Vec::new();
    for cell in [n, 1 << 32, sound.outlets[k].cell + (1 << 32), 1 << 63] {
        list.push((16, with(&|o| o.cell = cell)));
    }
    list.push((0, with(&|o| o.want = DEEPEST)));
    for want in [DEEPEST + 1, 1 << 32, 1 << 63] {
        list.push((16, with(&|o| o.want = want)));
    }
    for total in [1 << 32, MOST_TOTAL, MOST_TOTAL + 1, 1 << 63] {
        let ground = if total > MOST_TOTAL { 9 } else { 0 };
        list.push((ground, with(&|o| o.water = total)));
        list.push((ground, with(&|o| o.nutrient = total)));
    }
    list
}

/// Drawn water of entry k that does not fit the depth or the base depth.
fn odd_drawn(sound: &Record, k: usize) -> Vec<(u32, Record)> {
    let old = sound.outlets[k].drawn;
    let mut list = Vec::new();
    for drawn in [old + 1, old.saturating_sub(1), old + (1 << 32), 1 << 63] {
        let mut odd = sound.clone();
        odd.outlets[k].drawn = drawn;
        list.push((if drawn == old { 0 } else { 8 }, odd));
    }
    for damage in [draw_past_base, wrap_drawn] {
        let mut odd = sound.clone();
        if damage(&mut odd, k) {
            list.push((8, odd));
        }
    }
    list
}
