//! What the cases of report 4529 must show. Expected values come from the report or from theory.

use canal::record::Record;
use jemmyfern::Ledger;
use validation::cases::{self, Case, Mesh, LEFT, MESH, PEAK, PEAK_ROW, RIGHT, TABLE_1};
use validation::exact::GRAVITY;
use validation::floating::{self, Against, Choices};
use validation::run::{record, run, Outcome, Way, TWO_STEPS, UPWIND};

fn done(case: &Case, way: Way) -> Outcome {
    run(case, way).expect("no case leaves the library's limits")
}

/// Every case with its least and greatest concentration.
fn every_case() -> Vec<(Case, u64, u64)> {
    let mut all: Vec<_> = TABLE_1
        .iter()
        .map(|row| (cases::dam_break(MESH, row.right_depth), RIGHT, LEFT))
        .collect();
    all.push((cases::peak(), RIGHT, PEAK));
    all.push((cases::lake(), 0, cases::CONCENTRATION_ONE));
    all
}

#[test]
fn the_lake_stays_exactly_as_it_is() {
    let case = cases::lake();
    let hump = case.bed.iter().max().copied();
    assert!(hump > Some(199_000), "the bed is not flat");

    // the step alone changes nothing, not even carried water, so no number of steps does
    let mut one = record(&case);
    one.with(|reach| reach.step(52)).expect("52 ms meet CFL");
    assert_eq!(one, record(&case));

    for way in [TWO_STEPS, UPWIND] {
        let outcome = done(&case, way);
        assert_eq!(outcome.start, outcome.end);
        // the paper's wave speed at 1 m is 3,836 mm/s, so a cell of 200 mm allows 52 ms
        assert_eq!(outcome.hydrodynamic, 100_000u32.div_ceil(200_000 / 3_836));
    }
    // "it stays equal to one whatever the physical time is"
    assert_eq!(done(&case, TWO_STEPS).transport, 1);
}

#[test]
fn nothing_is_lost_between_walls() {
    let water = |record: &Record| record.depth.iter().sum::<u64>();
    let mass = |record: &Record| record.mass.iter().sum::<u64>();
    for (case, ..) in every_case() {
        for way in [TWO_STEPS, UPWIND] {
            let Outcome { start, end, .. } = done(&case, way);
            assert_eq!(water(&start), water(&end));
            assert_eq!(mass(&start), mass(&end));
            assert_eq!(end.ledger, Ledger::default());
        }
    }
}

#[test]
fn concentrations_keep_their_bounds_at_every_step() {
    for (case, least, greatest) in every_case() {
        let mut record = record(&case);
        let mut left = case.end_time;
        while left > 0 {
            left -= record.with(|reach| {
                let time = reach.greatest_step().expect("sound").time.min(left);
                reach.step(time).expect("the greatest step is allowed");
                time
            });
            for (mass, base) in record.mass.iter().zip(&record.base) {
                assert!((least * base..=greatest * base).contains(mass));
            }
        }
    }
}

#[test]
fn step_counts_are_those_of_table_1() {
    for row in TABLE_1 {
        let outcome = done(&cases::dam_break(MESH, row.right_depth), TWO_STEPS);
        assert_eq!(outcome.hydrodynamic, row.hydrodynamic);
        // the report does not say whether its last step is cut; ours is, and a short last step may need no transport of its own
        assert!(outcome.transport.abs_diff(row.transport) <= 1);
        assert!(outcome.transport <= outcome.hydrodynamic);
    }
    let peak = done(&cases::peak(), TWO_STEPS);
    assert_eq!(peak.hydrodynamic, PEAK_ROW.hydrodynamic);
    assert!(peak.transport.abs_diff(PEAK_ROW.transport) <= 1);
}

#[test]
fn fewer_steps_are_saved_as_the_froude_number_grows() {
    let saved = |outcome: &Outcome| f64::from(outcome.hydrodynamic) / f64::from(outcome.transport);
    let mut last: Option<Outcome> = None;
    for row in TABLE_1 {
        let outcome = done(&cases::dam_break(MESH, row.right_depth), TWO_STEPS);
        if let Some(last) = last {
            assert!(saved(&outcome) < saved(&last));
            assert!(outcome.profile().froude() > last.profile().froude());
        }
        last = Some(outcome);
    }
}

#[test]
fn the_mesh_may_be_read_in_three_ways() {
    // still water further out changes nothing
    for row in TABLE_1 {
        let counts = |mesh| {
            let outcome = done(&cases::dam_break(mesh, row.right_depth), TWO_STEPS);
            (outcome.transport, outcome.hydrodynamic)
        };
        for other in cases::BY_CENTRES {
            assert_eq!(counts(other), counts(MESH));
        }
    }
}

#[test]
fn a_finer_mesh_comes_closer() {
    for row in TABLE_1 {
        let exact = cases::exact(row.right_depth);
        let errors = [100, 200, 400].map(|cells| {
            let case = cases::dam_break(Mesh::new(cells, 3_600), row.right_depth);
            done(&case, TWO_STEPS).profile().depth_error(&case, &exact)
        });
        assert!(errors[0] > errors[1] && errors[1] > errors[2], "{errors:?}");
    }
}

#[test]
fn both_schemes_give_the_right_velocity_and_two_steps_are_sharper() {
    for row in TABLE_1 {
        let case = cases::dam_break(MESH, row.right_depth);
        let exact = cases::exact(row.right_depth);
        let there = exact.middle_velocity * case.seconds();
        let error = |way| {
            let profile = done(&case, way).profile();
            // within the report's cell of 20 m
            assert!((profile.front(&case) - there).abs() < 20.0);
            profile.concentration_error(&case, &exact)
        };
        assert!(error(TWO_STEPS) <= error(UPWIND));
    }
}

#[test]
fn two_steps_keep_the_peak() {
    // "the large diffusion of the upwind kinetic scheme conducts to loose the exact maximum value": .9, to the two digits of a picture
    let [two_steps, upwind] =
        [TWO_STEPS, UPWIND].map(|way| done(&cases::peak(), way).profile().greatest_concentration());
    assert!((0.895..=0.9).contains(&two_steps));
    assert!(upwind < 0.895);
}

#[test]
fn the_exact_solution_solves_the_equations() {
    let t = 240.0;
    for row in TABLE_1 {
        let exact = cases::exact(row.right_depth);
        let (h, u) = (exact.middle_depth, exact.middle_velocity);
        let (hl, hr, s) = (exact.left_depth, exact.right_depth, exact.shock_velocity);
        let near = |a: f64, b: f64| (a - b).abs() < 1e-9;
        let pressure = |h: f64| GRAVITY * h * h / 2.0;
        assert!(near(s * (h - hr), h * u), "water over the shock");
        assert!(
            near(s * h * u, h * u * u + pressure(h) - pressure(hr)),
            "momentum over the shock"
        );
        let invariant = |h: f64, u: f64| u + 2.0 * (GRAVITY * h).sqrt();
        assert!(
            near(invariant(h, u), invariant(hl, 0.0)),
            "invariant over the rarefaction"
        );
        assert!((exact.froude() - row.froude).abs() <= 0.000_5, "table 1");

        assert!(near(exact.place(0.0, t), u * t), "the pollutant's jump");
        for origin in [-900.0, -100.0, 5.0, 900.0] {
            assert!(near(exact.origin(exact.place(origin, t), t), origin));
        }

        // water and momentum over the whole reach, by midpoints
        let pieces = 200_000;
        let width = 2_000.0 / f64::from(pieces);
        let (mut water, mut momentum) = (0.0, 0.0);
        for k in 0..pieces {
            let x = -1_000.0 + width * (f64::from(k) + 0.5);
            let (h, u) = exact.state(x, t);
            water += h * width;
            momentum += h * u * width;
            // water is only carried: between two places lies as much as between their origins
            let stood = if exact.origin(x, t) < 0.0 { hl } else { hr };
            let between = exact.origin(x + 1e-4, t) - exact.origin(x - 1e-4, t);
            let at_edge = exact.edges(t).iter().any(|edge| (edge - x).abs() < 1e-3);
            assert!(at_edge || (between * stood / 2e-4 - h).abs() < 1e-4);
        }
        assert!((water - 1_000.0 * (hl + hr)).abs() < 0.01);
        assert!((momentum - t * (pressure(hl) - pressure(hr))).abs() < 0.05);
    }
}

#[test]
fn unrounded_the_scheme_counts_as_table_1_does() {
    for row in TABLE_1 {
        let count = |against| {
            let choices = Choices {
                gravity: 9.81,
                against,
                cut_last: false,
            };
            floating::run(&cases::dam_break(MESH, row.right_depth), choices)
        };
        let base = count(Against::Base);
        assert_eq!(
            (base.transport, base.hydrodynamic),
            (row.transport, row.hydrodynamic)
        );
        let greatest = base.profile.greatest_concentration();
        assert!(greatest <= cases::reports(LEFT) + 1e-9, "maximum principle");
    }
}

#[test]
fn the_case_of_eight_tenths_stands_on_an_edge() {
    // a transport step covers one cell at most (the report's |u| dt < dx), here twelve water steps; which of two counts comes out hangs on
    // less than the rounding of a step to whole ms and of a velocity of 330 mm/s to whole mm/s
    let choices = Choices {
        gravity: GRAVITY,
        against: Against::Base,
        cut_last: true,
    };
    let unrounded = floating::run(&cases::dam_break(MESH, 800_000), choices);
    assert!((1.0..1.002).contains(&unrounded.narrowest));

    let case = cases::dam_break(Mesh::new(100, 2_000), 800_000);
    let mut record = record(&case);
    let (mut left, mut fullest) = (case.end_time, 0f64);
    while left > 0 {
        let before = record.clone();
        let (time, transported) = record.with(|reach| {
            let time = reach.greatest_step().expect("sound").time.min(left);
            (time, reach.step(time).expect("allowed").transported)
        });
        left -= time;
        for cell in (0..before.cells()).filter(|_| transported) {
            let (l, r) = (before.carried[cell], before.carried[cell + 1]);
            fullest = fullest.max((r.max(0) - l.min(0)) as f64 / before.base[cell] as f64);
        }
    }
    assert!((0.999..=1.0).contains(&fullest));
}

#[test]
fn the_running_depth_breaks_the_maximum_principle() {
    // why the base depth stands in the test, and not what (26) prints
    let choices = Choices {
        gravity: 9.81,
        against: Against::Running,
        cut_last: false,
    };
    let unrounded = floating::run(&cases::dam_break(MESH, 10_000), choices);
    assert!(unrounded.profile.greatest_concentration() > cases::reports(LEFT) + 1e-3);
}
