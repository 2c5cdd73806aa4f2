//! Every ground alone and every pair of grounds, for each call on a record.

use reference::random::Record;
use reference::{greatest_step, set_ends, settle, step, write};
use reference::{Answer, End, GreatestAnswer, Outlet, StepAnswer, WriteAnswer};

use crate::refusals_record::{add, fast_end, overfull, record_breaks, set_carried, Breaks};
use crate::refusals_record::{drawn_flood, ends_broken, flood, DEPTH};
use crate::support::{draw, fed_end, open_end, record};

/// All that a call may be given.
#[derive(Clone, Debug, PartialEq)]
pub struct Case {
    pub record: Record,
    pub t: u64,
    pub strickler: u64,
    pub new_ends: [End; 2],
    pub out: Vec<u8>,
}

/// Three cells of a metre; water enters at the fed left end. Two outlets in the middle.
pub fn sound() -> Case {
    let ends = [fed_end(1_000_000, 500_000_000, 7), open_end(9)];
    let cells = [
        (0, DEPTH, 0, 5_000_000),
        (-30, DEPTH, 0, 17),
        (40, DEPTH, 0, 3),
    ];
    let mut record = record(1_000, ends, &cells, &[0; 4]);
    record.outlets = vec![Outlet::new(1, 0), Outlet::new(1, 20)];
    Case {
        record,
        t: 100,
        strickler: 30,
        new_ends: [open_end(1), fed_end(4, 9, 2)],
        out: vec![0xA5; 80 + 24 * 3],
    }
}

/// Turn of a ground in checking order: 16 is "checked after 7", 17 "after 10".
pub fn turn(ground: u32) -> u32 {
    match ground {
        16 => turn(7) + 1,
        17 => turn(10) + 1,
        _ => 2 * ground,
    }
}

/// Breaks each alone, then each pair; the earlier ground must win and nothing may change.
/// The earlier ground is broken last, so that the other cannot mend it.
fn check_all(call: fn(&mut Case) -> u32, breaks: &Breaks) {
    assert_eq!(call(&mut sound()), 0);
    for (ground, name, damage) in breaks {
        let mut case = sound();
        damage(&mut case);
        check(call, case, *ground, name);
    }
    for (first, name, damage) in breaks {
        for (_, other, more) in breaks
            .iter()
            .filter(|(later, ..)| turn(*later) > turn(*first))
        {
            let mut case = sound();
            more(&mut case);
            damage(&mut case);
            check(call, case, *first, &format!("{name} and {other}"));
        }
    }
}

fn check(call: fn(&mut Case) -> u32, mut case: Case, ground: u32, name: &str) {
    let before = case.clone();
    assert_eq!(call(&mut case), ground, "{name}");
    assert_eq!(case, before, "{name}");
}

#[test]
fn step_refuses_by_4_to_13_and_17() {
    let mut breaks = record_breaks();
    for t in [0, 1_001, (1 << 32) + 100, u64::MAX] {
        add(&mut breaks, 10, "t", move |case| case.t = t);
    }
    for f in [1, 9, 91, (1 << 32) + 30, u64::MAX] {
        add(&mut breaks, 17, "F", move |case| case.strickler = f);
    }
    add(&mut breaks, 11, "fast cell", |case| {
        let c = &mut case.record.columns;
        c.discharge[1] = 8_000 * c.depth[1] as i64;
    });
    add(&mut breaks, 11, "fast fed end", fast_end);
    add(&mut breaks, 11, "long step", |case| case.t = 1_000);
    add(&mut breaks, 12, "overfull", overfull);
    add(&mut breaks, 13, "water in", |case| {
        case.record.book.left.water_in = 1_000_000_000_000_000_000;
    });
    add(&mut breaks, 13, "outlet water", |case| {
        case.record.outlets[1].water = 1_000_000_000_000_000_000 - 19;
    });
    add(&mut breaks, 13, "outlet nutrient", drawn_flood);
    for total in 0..8 {
        add(&mut breaks, 13, "flood", move |case| flood(case, total));
    }
    check_all(
        |case| {
            let r = &mut case.record;
            let (t, f) = (case.t, case.strickler);
            let answer = step(&mut r.columns, &mut r.outlets, r.x, r.ends, r.book, t, f);
            let refusal = answer.refusal;
            let blank = StepAnswer {
                refusal,
                ends: r.ends,
                book: r.book,
                settled: false,
            };
            assert!(refusal == 0 || answer == blank);
            refusal
        },
        &breaks,
    );
}

/// Totals of nutrient at 10^18 with carried water that adds to them.
fn full_nutrient_totals(breaks: &mut Breaks) {
    const FULL: u64 = 1_000_000_000_000_000_000;
    add(breaks, 13, "left nutrient in", |case| {
        set_carried(case, [1, 0, 0, 0]);
        case.record.book.left.nutrient_in = FULL - 6;
    });
    add(breaks, 13, "left nutrient out", |case| {
        set_carried(case, [-1, 0, 0, 0]);
        case.record.book.left.nutrient_out = FULL - 4;
    });
    add(breaks, 13, "right nutrient in", |case| {
        set_carried(case, [0, 0, 0, -1]);
        case.record.book.right.nutrient_in = FULL - 8;
    });
    add(breaks, 13, "right nutrient out", |case| {
        set_carried(case, [0, 0, 0, DEPTH as i64]);
        case.record.book.right.nutrient_out = FULL - 2;
    });
    // all 17 grains of the middle cell
    add(breaks, 13, "outlet nutrient", |case| {
        draw(&mut case.record, 0, DEPTH);
        case.record.outlets[0].nutrient = FULL - 16;
    });
}

fn refused(answer: Answer, record: &Record) -> u32 {
    let came = Answer {
        refusal: answer.refusal,
        ends: record.ends,
        book: record.book,
    };
    assert!(answer.refusal == 0 || answer == came);
    answer.refusal
}

#[test]
fn settling_refuses_by_4_to_9_and_13() {
    let mut breaks = record_breaks();
    full_nutrient_totals(&mut breaks);
    check_all(
        |case| {
            let r = &mut case.record;
            let answer = settle(&mut r.columns, &mut r.outlets, r.x, r.ends, r.book);
            refused(answer, r)
        },
        &breaks,
    );
}

#[test]
fn end_setting_refuses_by_4_to_9_and_13() {
    let mut breaks = record_breaks();
    full_nutrient_totals(&mut breaks);
    for (k, end) in ends_broken().into_iter().enumerate() {
        add(&mut breaks, 6, "new end", move |case| {
            case.new_ends[k % 2] = end;
        });
    }
    check_all(
        |case| {
            let r = &mut case.record;
            let answer = set_ends(
                &mut r.columns,
                &mut r.outlets,
                r.x,
                r.ends,
                r.book,
                case.new_ends,
            );
            refused(answer, r)
        },
        &breaks,
    );
}

#[test]
fn greatest_step_refuses_by_4_to_9() {
    check_all(
        |case| {
            let r = &case.record;
            let answer = greatest_step(&r.columns, &r.outlets, r.x, r.ends, r.book);
            let refusal = answer.refusal;
            let blank = GreatestAnswer {
                refusal,
                ends: r.ends,
                book: r.book,
                t: 0,
                place: 0,
            };
            assert!(refusal == 0 || answer == blank);
            refusal
        },
        &record_breaks(),
    );
}

#[test]
fn write_refuses_by_4_to_9_and_14_and_15() {
    let mut breaks = record_breaks();
    add(&mut breaks, 14, "water in a step", |case| {
        set_carried(case, [0, 1, 0, 0])
    });
    add(&mut breaks, 14, "last interface", |case| {
        set_carried(case, [0, 0, 0, -1])
    });
    add(&mut breaks, 14, "drawn water", |case| {
        draw(&mut case.record, 1, 1);
    });
    for room in [0, 79, 80, 80 + 24 * 3 - 1] {
        add(&mut breaks, 15, "short", move |case| {
            case.out.truncate(room)
        });
    }
    check_all(
        |case| {
            let r = &case.record;
            let answer = write(&r.columns, &r.outlets, r.x, r.ends, r.book, &mut case.out);
            let refusal = answer.refusal;
            let (ends, book) = (r.ends, r.book);
            assert_eq!(
                answer,
                WriteAnswer {
                    refusal,
                    ends,
                    book
                }
            );
            refusal
        },
        &breaks,
    );
}

#[test]
fn grounds_that_do_not_concern_a_call_are_skipped() {
    // 14 does not concern a settling, 13 neither a greatest-step call nor a write
    let mut case = sound();
    set_carried(&mut case, [5, 0, 0, -5]);
    let r = &mut case.record;
    assert_eq!(
        settle(&mut r.columns, &mut r.outlets, r.x, r.ends, r.book).refusal,
        0
    );
    flood(&mut case, 0);
    let r = &case.record;
    assert_eq!(
        greatest_step(&r.columns, &r.outlets, r.x, r.ends, r.book).refusal,
        0
    );
    let mut full = sound();
    full.record.book.left.water_in = 1_000_000_000_000_000_000;
    let r = &full.record;
    let answer = write(&r.columns, &r.outlets, r.x, r.ends, r.book, &mut full.out);
    assert_eq!(answer.refusal, 0);
}

#[test]
fn totals_may_reach_the_limit_but_not_pass_it() {
    let mut case = sound();
    set_carried(&mut case, [1, 0, 0, 0]);
    let r = &mut case.record;
    r.book.left.nutrient_in = 1_000_000_000_000_000_000 - 7;
    let answer = settle(&mut r.columns, &mut r.outlets, r.x, r.ends, r.book);
    assert_eq!(answer.refusal, 0);
    assert_eq!(answer.book.left.nutrient_in, 1_000_000_000_000_000_000);
}
