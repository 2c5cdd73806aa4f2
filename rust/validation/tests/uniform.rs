//! What flow down a slope with friction must show. Expected values come from Strickler's formula and the equation of gradually varied flow.

use canal::run::run;
use jemmyfern::Boundary;
use std::sync::LazyLock;
use validation::uniform::{self, Flow, Steady, CELL_LENGTH, TIME};

/// Every flow at its end.
static STEADY: LazyLock<Vec<Steady>> = LazyLock::new(|| {
    let flows = uniform::flows();
    flows.iter().map(|flow| steady(flow, CELL_LENGTH)).collect()
});

fn steady(flow: &Flow, cell_length: u64) -> Steady {
    flow.steady(cell_length)
        .expect("no flow leaves the library's limits")
}

/// The flows that are fed with 1 m^2/s.
fn deep() -> impl Iterator<Item = &'static Steady> {
    STEADY.iter().filter(|s| s.flow.fed() == 1.0)
}

#[test]
fn theory_by_hand() {
    // 8 m deep, and 8^(2/3) is 4
    let flow = Flow {
        strickler: 50,
        per_mille: 1,
        fed: 0,
    };
    let velocity = 50.0 * 4.0 * 0.001f64.sqrt();
    assert!((flow.velocity(8.0) - velocity).abs() < 1e-12);
    assert!((flow.depth(8.0 * velocity) - 8.0).abs() < 1e-12);
    // at its own depth the flow is uniform, and far above any other it comes to be
    let even = flow.backwater(8.0 * velocity, 8.0, 50, 100.0);
    assert!(even.iter().all(|h| (h - 8.0).abs() < 1e-9));
    let pond = flow.backwater(8.0 * velocity, 12.0, 512, 100.0);
    assert!(pond.is_sorted() && (pond[0] - 8.0).abs() < 1e-3);
    // a pond so deep that it hardly moves is level: it is deeper by the slope
    let level = flow.backwater(1e-3, 30.0, 2, 100.0);
    assert!((level[1] - level[0] - 0.1).abs() < 1e-6);
}

#[test]
fn water_comes_to_stricklers_depth_and_velocity() {
    for s in STEADY.iter() {
        // shallow water on the steep slope is worst
        let (depth, velocity) = match (s.flow.fed() == 1.0, s.flow.per_mille) {
            (true, 1) => (0.004, 0.012),
            (true, _) => (0.02, 0.032),
            (false, 1) => (0.02, 0.041),
            (false, _) => (0.04, 0.073),
        };
        assert!(s.depth_off().abs() < depth, "{:?}", s.flow);
        // what is cut and left out slows the water, and never speeds it up
        let off = s.velocity_off();
        assert!((-velocity..0.0).contains(&off), "{:?} {off}", s.flow);
        // a fed boundary lets in what it is told to within some percent
        let fed = s.passes / s.flow.fed() - 1.0;
        assert!((-0.045..0.0).contains(&fed), "{:?} {fed}", s.flow);
    }
}

#[test]
fn what_is_off_in_the_velocity_has_two_reasons() {
    for s in STEADY.iter() {
        let rest = s.velocity_off() - s.centimetres() - s.steps();
        assert!(rest.abs() < 0.003, "{:?} {rest}", s.flow);
    }
}

#[test]
fn a_smoother_bed_is_faster_and_shallower() {
    for three in STEADY.chunks(3) {
        for pair in three.windows(2) {
            let [rough, smooth] = pair else { continue };
            assert!(rough.flow.strickler < smooth.flow.strickler);
            assert!(rough.mean_velocity() < smooth.mean_velocity());
            assert!(rough.mean_depth() > smooth.mean_depth());
        }
    }
}

#[test]
fn the_end_is_steady_and_does_not_hang_on_the_beginning() {
    for s in deep().filter(|s| s.flow.per_mille == 1) {
        for (times, time) in [(1.2, TIME * 2 / 3), (0.6, TIME)] {
            let other = s.flow.after(s.flow.start(CELL_LENGTH, times), time);
            let other = other.expect("within the limits");
            let depth = other.mean_depth() / s.mean_depth() - 1.0;
            let velocity = other.mean_velocity() / s.mean_velocity() - 1.0;
            assert!(depth.abs() < 0.001, "{:?} {depth}", s.flow);
            assert!(velocity.abs() < 0.001, "{:?} {velocity}", s.flow);
        }
    }
}

#[test]
fn water_backs_up_before_the_open_boundary_as_theory_says() {
    for s in deep().filter(|s| s.flow.per_mille == 1) {
        let (cells, end) = (s.depth.len(), s.depth[s.depth.len() - 1]);
        assert!(end > 1.1 * s.mean_depth());
        let theory = s.flow.backwater(s.passes, end, cells, s.cell_metres());
        // past the first cells, which stand between what is fed and uniform flow
        for (h, theory) in s.depth.iter().zip(theory).skip(5) {
            assert!(
                (h / theory - 1.0).abs() < 0.007,
                "{:?} {h} {theory}",
                s.flow
            );
        }
    }
}

#[test]
fn a_tail_that_is_fed_keeps_the_flow_uniform() {
    for s in deep().filter(|s| s.flow.per_mille == 1) {
        let mut record = s.flow.start(CELL_LENGTH, 1.2);
        let Boundary {
            depth, discharge, ..
        } = record.boundaries[0];
        record.boundaries[1] = Boundary::fed(depth, discharge, 0);
        let fed = s.flow.after(record, TIME).expect("within the limits");
        let theory = s.flow.depth(fed.passes);
        assert!(fed
            .depth
            .iter()
            .skip(5)
            .all(|h| (h / theory - 1.0).abs() < 0.015));
    }
}

#[test]
fn shorter_cells_come_closer_to_stricklers_velocity() {
    for s in deep().filter(|s| s.flow.per_mille == 3) {
        let off = |length| steady(&s.flow, length).velocity_off().abs();
        let (long, middle) = (off(4 * CELL_LENGTH), off(2 * CELL_LENGTH));
        assert!(long > middle && middle > s.velocity_off().abs());
    }
}

#[test]
fn without_friction_the_water_only_speeds_up() {
    let s = &STEADY[1];
    let mut record = s.flow.start(CELL_LENGTH, 1.2);
    run(&mut record, TIME / 3, None, 0, |_| ()).expect("within the limits");
    let velocity = |cell: usize| record.discharge[cell] as f64 / record.depth[cell] as f64 / 1e3;
    assert!(velocity(75) > 2.0 * s.mean_velocity());
    assert!((10..75).all(|cell| velocity(cell) < velocity(cell + 1)));
}
