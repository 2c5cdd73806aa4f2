//! Ways to break grounds 4 to 9 and 16 of the sound three-cell record, and 11 to 13 of its step.

use reference::outlet::drawn_at;
use reference::random::{book_from, Random};
use reference::record::MOST_TOTAL;
use reference::{End, Outlet};

use crate::refusals::Case;
use crate::support::{draw, fed_end, open_end, WALL_END};

pub const DEPTH: u64 = 1_000_000;

/// Ground, name and damage.
pub type Breaks = Vec<(u32, String, Box<dyn Fn(&mut Case)>)>;

pub fn add(breaks: &mut Breaks, ground: u32, name: &str, damage: impl Fn(&mut Case) + 'static) {
    breaks.push((ground, name.to_string(), Box::new(damage)));
}

pub fn record_breaks() -> Breaks {
    let mut breaks = Breaks::new();
    lengths(&mut breaks);
    for x in [0, 99, 100_001, (1 << 32) + 1_000, u64::MAX] {
        add(&mut breaks, 5, "X", move |case| case.record.x = x);
    }
    for end in ends_broken() {
        add(&mut breaks, 6, "left end", move |case| {
            case.record.ends[0] = end
        });
        add(&mut breaks, 6, "right end", move |case| {
            case.record.ends[1] = end
        });
    }
    values(&mut breaks);
    lists(&mut breaks);
    carried(&mut breaks);
    drawn(&mut breaks);
    outlet_totals(&mut breaks);
    for total in 0..8 {
        for over in [MOST_TOTAL + 1, u64::MAX] {
            let mut totals = [0; 8];
            totals[total] = over;
            let name = format!("total {total}");
            add(&mut breaks, 9, &name, move |case| {
                case.record.book = book_from(totals);
            });
        }
    }
    breaks
}

fn lengths(breaks: &mut Breaks) {
    for length in [0, 2, 4, 513] {
        add(breaks, 4, "bed", move |case| {
            case.record.columns.bed.resize(length, 0);
        });
        add(breaks, 4, "depth", move |case| {
            case.record.columns.depth.resize(length, 0);
        });
        add(breaks, 4, "discharge", move |case| {
            case.record.columns.discharge.resize(length, 0);
        });
        add(breaks, 4, "nutrient", move |case| {
            case.record.columns.nutrient.resize(length, 0);
        });
        add(breaks, 4, "base", move |case| {
            case.record.columns.base.resize(length, 0);
        });
    }
    for length in [0, 3, 5] {
        add(breaks, 4, "carried", move |case| {
            case.record.columns.carried.resize(length, 0);
        });
    }
    add(breaks, 4, "all columns empty", |case| {
        case.record.columns = reference::Columns::of_cells(0);
    });
    add(breaks, 4, "all columns of 513 cells", |case| {
        case.record.columns = reference::Columns::of_cells(513);
    });
}

/// One end for each way to break a kind.
pub fn ends_broken() -> Vec<End> {
    let mut ends = vec![
        End {
            kind: 3,
            ..WALL_END
        },
        End {
            kind: u32::MAX,
            ..open_end(1)
        },
        End {
            depth: 1,
            ..WALL_END
        },
        End {
            discharge: 1,
            ..WALL_END
        },
        End {
            discharge: i64::MIN,
            ..WALL_END
        },
        End {
            concentration: 1,
            ..WALL_END
        },
        End {
            depth: 1,
            ..open_end(1)
        },
        End {
            discharge: -1,
            ..open_end(1)
        },
        open_end(500_001),
        open_end((1 << 32) + 1),
        open_end(u64::MAX),
        fed_end(0, 0, 1),
        fed_end(4_000_001, 0, 1),
        fed_end((1 << 32) + 5, 0, 1),
        fed_end(u64::MAX, 0, 1),
        fed_end(5, 40_001, 1),
        fed_end(5, -40_001, 1),
        fed_end(5, i64::MIN, 1),
        fed_end(5, i64::MAX, 1),
        fed_end(5, 40_000, 500_001),
    ];
    for sound in [WALL_END, open_end(1), fed_end(5, 1, 1)] {
        ends.push(End { zero: 1, ..sound });
    }
    ends
}

fn values(breaks: &mut Breaks) {
    for z in [100_000_001, -100_000_001, i64::MIN, i64::MAX] {
        add(breaks, 7, "bed", move |case| case.record.columns.bed[0] = z);
    }
    for h in [4_000_001, u64::MAX] {
        add(breaks, 7, "depth", move |case| {
            case.record.columns.depth[2] = h
        });
        add(breaks, 7, "base", move |case| {
            case.record.columns.base[1] = h
        });
    }
    let over = 8_000 * DEPTH as i64 + 1;
    for q in [over, -over, i64::MIN, i64::MAX] {
        add(breaks, 7, "discharge", move |case| {
            // the depth may have been changed for a later ground
            case.record.columns.depth[1] = DEPTH;
            case.record.columns.discharge[1] = q;
        });
    }
    for m in [500_000 * DEPTH + 1, u64::MAX] {
        add(breaks, 7, "nutrient", move |case| {
            case.record.columns.base[2] = DEPTH;
            case.record.columns.nutrient[2] = m;
        });
    }
}

fn lists(breaks: &mut Breaks) {
    for length in [33, 100] {
        add(breaks, 16, "list", move |case| {
            case.record.outlets.resize(length, Outlet::default());
        });
    }
    for cell in [3, 1 << 32, (1 << 32) + 1, 1 << 63, u64::MAX] {
        add(breaks, 16, "cell", move |case| {
            case.record.outlets[0].cell = cell;
        });
    }
    for want in [4_000_001, 1 << 32, 1 << 63, u64::MAX] {
        add(breaks, 16, "want", move |case| {
            case.record.outlets[1].want = want;
        });
    }
}

fn drawn(breaks: &mut Breaks) {
    for more in [1, 1 << 32, 1 << 63] {
        add(breaks, 8, "drawn", move |case| {
            case.record.outlets[1].drawn += more;
        });
    }
    add(breaks, 8, "drawn past 64 bits", |case| {
        case.record.outlets[0].drawn += 1 << 63;
        case.record.outlets[1].drawn += 1 << 63;
    });
    // all that is there, after 5 went on to the right
    add(breaks, 8, "drawn over the base", |case| {
        case.record.columns.base.fill(DEPTH);
        case.record.columns.discharge[1] = 0;
        set_carried(case, [5; 4]);
        let more = case.record.columns.depth[1];
        draw(&mut case.record, 0, more);
    });
}

fn outlet_totals(breaks: &mut Breaks) {
    for over in [MOST_TOTAL + 1, u64::MAX] {
        add(breaks, 9, "outlet water", move |case| {
            case.record.outlets[1].water = over;
        });
        add(breaks, 9, "outlet nutrient", move |case| {
            case.record.outlets[0].nutrient = over;
        });
    }
}

/// Carried water with depths that follow from it and from the drawn water.
pub fn set_carried(case: &mut Case, carried: [i64; 4]) {
    let c = &mut case.record.columns;
    c.carried = carried.to_vec();
    for i in 0..3 {
        let drawn = drawn_at(&case.record.outlets, i) as i64;
        c.depth[i] = (c.base[i] as i64 + carried[i] - carried[i + 1] - drawn) as u64;
    }
}

fn carried(breaks: &mut Breaks) {
    for w in [1, -1, 4_000_001, -4_000_001, i64::MIN, i64::MAX] {
        for i in 0..4 {
            add(breaks, 8, "depth does not follow", move |case| {
                set_carried(case, [0; 4]);
                case.record.columns.carried[i] = w;
            });
        }
    }
    add(breaks, 8, "base", |case| case.record.columns.base[0] -= 1);
    // the same water through every interface keeps the depths
    for w in [DEPTH as i64 + 1, -(DEPTH as i64) - 1] {
        add(breaks, 8, "outflow over the base", move |case| {
            case.record.columns.base.fill(DEPTH);
            set_carried(case, [w; 4]);
        });
    }
    add(breaks, 8, "left wall", |case| {
        case.record.columns.base.fill(DEPTH);
        case.record.ends[0] = WALL_END;
        set_carried(case, [1, 0, 0, 0]);
    });
    add(breaks, 8, "right wall", |case| {
        case.record.columns.base.fill(DEPTH);
        case.record.ends[1] = WALL_END;
        set_carried(case, [0, 0, 0, -1]);
    });
}

/// A fed end beyond CFL beside cells within it.
pub fn fast_end(case: &mut Case) {
    case.record.ends[1] = fed_end(4_000_000, 8_000 * 4_000_000, 0);
}

/// Full cells and inflow: the first cell would pass 4,000,000.
pub fn overfull(case: &mut Case) {
    case.record.ends[0] = fed_end(4_000_000, 2_000 * 4_000_000, 0);
    case.record.columns.base.fill(4_000_000);
    set_carried(case, [0; 4]);
}

/// A step that settles by drawn water and gives the first outlet 8 of 17 grains, a grain too many:
/// it has drawn half the base depth, and the second takes more than the other half.
pub fn drawn_flood(case: &mut Case) {
    let half = DEPTH as i64 / 2;
    set_carried(case, [half, half, 0, 0]);
    draw(&mut case.record, 0, DEPTH / 2);
    case.record.outlets[0].nutrient = MOST_TOTAL - 7;
    case.record.outlets[1].want = DEPTH;
}

/// A step that settles and adds to all totals of two ends; one of those is full.
/// Totals 0, 2, 5, 7 gain when water runs right, the others when it runs left.
pub fn flood(case: &mut Case, total: usize) {
    let way = if [0, 2, 5, 7].contains(&total) { 1 } else { -1 };
    let c = &mut case.record.columns;
    c.base.fill(DEPTH);
    c.bed.fill(0);
    c.nutrient.fill(5 * DEPTH);
    c.discharge.fill(way * 500 * DEPTH as i64);
    set_carried(case, [way * DEPTH as i64; 4]);
    let fed = fed_end(DEPTH, way * 500 * DEPTH as i64, 7);
    case.record.ends = [fed; 2];
    let mut totals = [0; 8];
    totals[total] = MOST_TOTAL - Random::new(total as u64).below(1_000);
    case.record.book = book_from(totals);
}
