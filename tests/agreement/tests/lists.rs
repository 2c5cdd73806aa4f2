//! Whole lists through the driver against the second implementation, played call by call: every column, X, boundaries, ledger, every outlet, the
//! output and every answer. About a third of the calls are refused, openings in between among them. The lists have 0 to 32 outlets, wants of each
//! call, and openings that are lent lists of their own.

use agreement::both::allowed_strickler;
use agreement::calls;
use agreement::sheets::{damages, lent, Opening};
use reference::outlet::MOST_OUTLETS;
use reference::random::{
    cell_count, choose_wants, damage_end, damage_list, end, outlets_for_opening, strickler, Random,
    Record, COLUMN_ORDERS,
};
use reference::record::{Columns, End, DEEPEST, MOST_CELLS};
use reference::sheet::sheet_length;
use reference::Outlet;
use std::collections::BTreeMap;

/// A call with its free arguments: a step's are t and Strickler's coefficient, a write's is the room of its output.
#[derive(Clone, Debug)]
enum Call {
    Step(u64, u64),
    Transport,
    SetBoundaries([End; 2]),
    Greatest,
    Write(usize),
    Open(Vec<u8>, Vec<Outlet>),
}

/// A call, and what each of 32 outlets wants at it.
#[derive(Clone, Debug)]
struct Entry {
    wants: [u64; MOST_OUTLETS],
    call: Call,
}

/// A list as the driver is lent it: 206 words a call, and the bytes of all sheets.
#[derive(Default)]
struct Script {
    words: Vec<u64>,
    sheets: Vec<u8>,
}

fn boundary_words(e: &End) -> [u64; 5] {
    [
        e.kind.into(),
        e.zero.into(),
        e.depth,
        e.concentration,
        e.discharge as u64,
    ]
}

fn outlet_words(o: &Outlet) -> [u64; 5] {
    [o.cell, o.want, o.drawn, o.water, o.nutrient]
}

impl Script {
    fn push(&mut self, entry: &Entry) {
        let mut words = [0; 206];
        words[13..45].copy_from_slice(&entry.wants);
        match &entry.call {
            Call::Step(t, f) => words[1..3].copy_from_slice(&[*t, *f]),
            Call::Transport => words[0] = 1,
            Call::SetBoundaries(new) => {
                words[0] = 2;
                words[3..8].copy_from_slice(&boundary_words(&new[0]));
                words[8..13].copy_from_slice(&boundary_words(&new[1]));
            }
            Call::Greatest => words[0] = 3,
            Call::Write(room) => {
                words[0] = 4;
                words[1] = *room as u64;
            }
            Call::Open(sheet, list) => {
                words[0] = 5;
                words[1] = self.sheets.len() as u64;
                self.sheets.extend(sheet);
                words[2] = self.sheets.len() as u64;
                words[45] = list.len() as u64;
                let first: Vec<u64> = (list.iter().take(MOST_OUTLETS))
                    .flat_map(outlet_words)
                    .collect();
                words[46..][..first.len()].copy_from_slice(&first);
            }
        }
        self.words.extend(words);
    }
}

/// What a call answers: its number, whether a transport came before the step, the greatest step and its place.
type Answer = [u64; 4];

fn give_wants(record: &mut Record, wants: &[u64]) {
    for (outlet, want) in record.outlets.iter_mut().zip(wants) {
        outlet.want = *want;
    }
}

/// The wants of a record's outlets; what stands behind them may be anything.
fn wants_of(r: &mut Random, record: &Record) -> [u64; MOST_OUTLETS] {
    let mut wants = [0; MOST_OUTLETS].map(|_| r.next_u64());
    for (want, outlet) in wants.iter_mut().zip(&record.outlets) {
        *want = outlet.want;
    }
    wants
}

/// A record, an output and the second implementation's calls on them.
struct Theirs {
    record: Record,
    out: Vec<u8>,
}

impl Theirs {
    fn play(&mut self, entry: &Entry) -> Answer {
        let r = &mut self.record;
        // an opening has no wants but those of its list
        if !matches!(entry.call, Call::Open(..)) {
            give_wants(r, &entry.wants);
        }
        let (c, outlets) = (&mut r.columns, &mut r.outlets);
        let (x, ends, book) = (r.x, r.ends, r.book);
        match &entry.call {
            Call::Step(t, f) => {
                let a = reference::step(c, outlets, x, ends, book, *t, *f);
                (r.ends, r.book) = (a.ends, a.book);
                [a.refusal.into(), a.settled.into(), 0, 0]
            }
            Call::Transport => {
                let a = reference::settle(c, outlets, x, ends, book);
                (r.ends, r.book) = (a.ends, a.book);
                [a.refusal.into(), 0, 0, 0]
            }
            Call::SetBoundaries(new) => {
                let a = reference::set_ends(c, outlets, x, ends, book, *new);
                (r.ends, r.book) = (a.ends, a.book);
                [a.refusal.into(), 0, 0, 0]
            }
            Call::Greatest => {
                let a = reference::greatest_step(c, outlets, x, ends, book);
                (r.ends, r.book) = (a.ends, a.book);
                [a.refusal.into(), 0, a.t, a.place as u64]
            }
            Call::Write(room) => {
                let room = (*room).min(self.out.len());
                let a = reference::write(c, outlets, x, ends, book, &mut self.out[..room]);
                (r.ends, r.book) = (a.ends, a.book);
                [a.refusal.into(), 0, 0, 0]
            }
            Call::Open(sheet, list) => {
                let mut list = list.clone();
                let a = reference::open(sheet, c, &mut list);
                if a.refusal == 0 {
                    (r.x, r.ends, r.book) = (a.x, a.ends, a.book);
                    r.outlets = list;
                }
                [a.refusal.into(), 0, 0, 0]
            }
        }
    }
}

/// A sheet that opens into columns for n cells, in any order of columns.
fn sheet(r: &mut Random, n: usize) -> Opening {
    let order = r.pick(&COLUMN_ORDERS);
    Opening::sound(r, n, order)
}

/// A sheet that does not: damaged in one of the ways of grounds 1 to 7, or of another number of cells.
fn bad_sheet(r: &mut Random, n: usize) -> Vec<u8> {
    let sound = sheet(r, n);
    if r.one_in(6) {
        return sheet(r, if n == 1 { 2 } else { n - 1 }).sheet;
    }
    loop {
        let list = damages(r, &sound);
        let damaged = sound.damaged(&[&list[r.below(list.len() as u64) as usize]]);
        // a damage of ground 4 is to the columns lent, which a list does not choose
        if damaged.sheet != sound.sheet {
            return damaged.sheet;
        }
    }
}

/// An opening that is meant to be accepted, with a list of its own.
fn reopen(r: &mut Random, n: usize) -> Call {
    let opening = sheet(r, n);
    let list = outlets_for_opening(r, &opening.record);
    Call::Open(opening.sheet, list)
}

/// A call that is meant to be accepted, as far as the record allows. Its wants are new ones or, if they are sound, the last.
fn good(r: &mut Random, record: &Record, n: usize) -> Entry {
    let mut record = record.clone();
    for outlet in &mut record.outlets {
        outlet.want = outlet.want.min(DEEPEST);
    }
    let Record {
        columns,
        outlets,
        x,
        ends,
        book,
    } = &record;
    let carrying = columns.carried.iter().any(|&c| c != 0);
    let drawing = outlets.iter().any(|o| o.drawn != 0);
    let most = reference::greatest_step(columns, outlets, *x, *ends, *book).t;
    let call = match r.below(24) {
        0 | 1 => Call::Transport,
        2 | 3 => Call::SetBoundaries([end(r), end(r)]),
        4 | 5 => Call::Greatest,
        6 if r.one_in(8) => reopen(r, n),
        7 | 8 if !carrying && !drawing => Call::Write(sheet_length(n) + r.below(90) as usize),
        9 => Call::Step(1 + r.below(most), allowed_strickler(r)),
        _ => Call::Step(most, allowed_strickler(r)),
    };
    if r.one_in(2) {
        choose_wants(r, &mut record, most);
    }
    Entry {
        wants: wants_of(r, &record),
        call,
    }
}

/// A call that is meant to be refused.
fn bad(r: &mut Random, record: &Record, n: usize) -> Entry {
    let carrying = record.columns.carried.iter().any(|&c| c != 0);
    let mut wants = wants_of(r, record);
    let call = match r.below(9) {
        0 => match reopen(r, n) {
            Call::Open(_, list) => Call::Open(bad_sheet(r, n), list),
            call => call,
        },
        1 => {
            let mut new = [end(r), end(r)];
            let side = r.below(2) as usize;
            match r.below(6) {
                // as it was, if it were cut to 32 bits
                0 => new[side].depth += 1 << 32,
                1 => new[side].concentration += 1 << 32,
                _ => damage_end(r, &mut new[side]),
            }
            Call::SetBoundaries(new)
        }
        2 => Call::Write(r.below(sheet_length(n) as u64) as usize),
        3 if carrying => Call::Write(sheet_length(n)),
        4 => Call::Step(1_000 - r.below(2), allowed_strickler(r)),
        5 => {
            let mut call = reopen(r, n);
            if let Call::Open(_, list) = &mut call {
                damage_list(r, list, n);
            }
            call
        }
        6 if !record.outlets.is_empty() => {
            let k = r.below(record.outlets.len() as u64) as usize;
            wants[k] = r.pick(&[DEEPEST + 1, 1 << 32, 1 << 63, u64::MAX]);
            match r.below(5) {
                0 => Call::Transport,
                1 => Call::SetBoundaries([end(r), end(r)]),
                2 => Call::Greatest,
                3 => Call::Write(sheet_length(n)),
                _ => Call::Step(1, strickler(r)),
            }
        }
        7 => {
            // the last two would be sound if they were cut to 32 bits
            let wide = r.pick(&[1 << 63, u64::MAX, 1 << 32, (1 << 32) + 35]);
            let (below, above) = (1 + r.below(9), 91 + r.below(1_000));
            Call::Step(1 + r.below(1_000), r.pick(&[below, above, 9, 91, wide]))
        }
        _ => {
            let t = r.pick(&[0, 1_001, 1 << 32, (1 << 32) + 1, u64::MAX]);
            Call::Step(t, strickler(r))
        }
    };
    Entry { wants, call }
}

/// Numbers of cells: mostly few, now and then the greatest.
fn cells(r: &mut Random) -> usize {
    match r.below(50) {
        0 => MOST_CELLS,
        1..=4 => cell_count(r),
        _ => r.between(1, 9) as usize,
    }
}

/// What the lists came upon: calls by name and number.
type Seen = BTreeMap<(&'static str, u64), u64>;

/// How many steps took water out of the reach, by the number of outlets.
type Drawn = BTreeMap<usize, u64>;

fn water(record: &Record) -> u128 {
    record.outlets.iter().map(|o| u128::from(o.water)).sum()
}

fn name(call: &Call) -> &'static str {
    match call {
        Call::Step(_, 0) => "step",
        Call::Step(..) => "step with friction",
        Call::Transport => "transport",
        Call::SetBoundaries(_) => "setting of boundaries",
        Call::Greatest => "greatest step",
        Call::Write(_) => "write",
        Call::Open(..) => "opening",
    }
}

/// One list of so many calls: made up call by call on the second implementation, then played whole by the driver.
fn list(r: &mut Random, calls: usize, seen: &mut Seen, drawn: &mut Drawn) {
    let n = cells(r);
    let first = sheet(r, n);
    let came: Vec<u8> = (0..sheet_length(n) + 60)
        .map(|_| r.below(256) as u8)
        .collect();
    let mut columns: Columns = lent(n);
    let lent_list = outlets_for_opening(r, &first.record);
    let mut outlets = lent_list.clone();
    let opened = reference::open(&first.sheet, &mut columns, &mut outlets);
    assert_eq!(opened.refusal, 0);
    let mut theirs = Theirs {
        record: Record {
            columns,
            outlets,
            x: opened.x,
            ends: opened.ends,
            book: opened.book,
        },
        out: came.clone(),
    };
    let mut script = Script::default();
    let mut expected = Vec::new();
    for _ in 0..calls {
        let entry = if r.one_in(3) {
            bad(r, &theirs.record, n)
        } else {
            good(r, &theirs.record, n)
        };
        let before = water(&theirs.record);
        let answer = theirs.play(&entry);
        *seen.entry((name(&entry.call), answer[0])).or_default() += 1;
        let count = theirs.record.outlets.len();
        *drawn.entry(count).or_default() += u64::from(water(&theirs.record) > before);
        script.push(&entry);
        expected.extend(answer);
    }
    let (mut columns, mut out) = (lent(n), came);
    // one answer more than there are calls: it stays as it came
    let mut answers = vec![7; expected.len() + 4];
    expected.extend([7; 4]);
    let (last, outlets) = calls::replay(
        &first.sheet,
        &script.words,
        &script.sheets,
        &mut columns,
        &lent_list,
        &mut out,
        &mut answers,
    );
    assert_eq!(last.refusal, 0);
    assert_eq!(answers, expected);
    let ours = Record {
        columns,
        outlets,
        x: last.x,
        ends: last.ends,
        book: last.book,
    };
    assert_eq!(ours, theirs.record);
    assert_eq!(out, theirs.out);
}

/// 1,200 lists of 200 calls.
#[test]
fn lists_through_the_driver_agree() {
    let mut r = Random::new(79);
    let (mut seen, mut drawn) = (Seen::new(), Drawn::new());
    for _ in 0..1_200 {
        list(&mut r, 200, &mut seen, &mut drawn);
    }
    assert!(drawn.keys().copied().eq(0..=MOST_OUTLETS), "{drawn:?}");
    assert!(
        drawn.values().skip(1).all(|&steps| steps >= 100),
        "{drawn:?}"
    );
    let count = |refused: bool| -> u64 {
        seen.iter()
            .filter(|((_, number), _)| (*number != 0) == refused)
            .map(|(_, times)| times)
            .sum()
    };
    let (refused, all) = (count(true), count(true) + count(false));
    assert_eq!(all, 240_000);
    assert!(refused * 100 >= all * 30, "{refused} of {all}: {seen:?}");
    assert!(refused * 100 <= all * 45, "{refused} of {all}: {seen:?}");
    for came_out in [
        ("step", 0),
        ("step", 10),
        ("step", 11),
        ("step", 12),
        ("step", 16),
        ("step with friction", 0),
        ("step with friction", 10),
        ("step with friction", 17),
        ("step with friction", 11),
        ("step with friction", 12),
        ("step with friction", 16),
        ("transport", 0),
        ("transport", 16),
        ("setting of boundaries", 0),
        ("setting of boundaries", 6),
        ("setting of boundaries", 16),
        ("greatest step", 0),
        ("greatest step", 16),
        ("write", 0),
        ("write", 14),
        ("write", 15),
        ("write", 16),
        ("opening", 0),
        ("opening", 1),
        ("opening", 2),
        ("opening", 3),
        ("opening", 4),
        ("opening", 5),
        ("opening", 6),
        ("opening", 7),
        ("opening", 16),
    ] {
        assert!(seen.contains_key(&came_out), "{came_out:?} of {seen:?}");
    }
}

/// A first opening that is refused: nothing is played, and all that was lent stands as it came.
#[test]
fn a_refused_opening_plays_nothing() {
    let mut r = Random::new(83);
    for _ in 0..2_000 {
        let n = cells(&mut r);
        let mut script = Script::default();
        let record = sheet(&mut r, n).record;
        let wants = wants_of(&mut r, &record);
        for call in [
            Call::Step(1, allowed_strickler(&mut r)),
            Call::Write(sheet_length(n)),
            reopen(&mut r, n),
        ] {
            script.push(&Entry { wants, call });
        }
        let mut list = outlets_for_opening(&mut r, &record);
        let first = if r.one_in(3) {
            damage_list(&mut r, &mut list, n);
            list.truncate(MOST_OUTLETS + 1);
            sheet(&mut r, n).sheet
        } else {
            bad_sheet(&mut r, n)
        };
        let (mut columns, mut out, mut answers) = (lent(n), vec![9; 100], vec![7; 12]);
        let (last, outlets) = calls::replay(
            &first,
            &script.words,
            &script.sheets,
            &mut columns,
            &list,
            &mut out,
            &mut answers,
        );
        let mut stays = list.clone();
        assert_eq!(last, reference::open(&first, &mut lent(n), &mut stays));
        assert_ne!(last.refusal, 0);
        assert_eq!(stays, list);
        // by value no more than 32 go there and back
        list.truncate(MOST_OUTLETS);
        assert_eq!(outlets[..list.len()], list);
        assert_eq!(
            (columns, out, answers),
            (lent(n), vec![9; 100], vec![7; 12])
        );
    }
}
