//! Friction of the bed in a run.

use crate::tools::*;
use canal::explain::explain_strickler;
use canal::record::Record;
use jemmyfern::{Boundary, Refusal};

/// One cell of a metre between open boundaries: as much flows in as out.
fn passing(depth: u64, discharge: i64) -> Record {
    let mut record = Record::new(1);
    record.boundaries = [Boundary::open(0); 2];
    record.depth[0] = depth;
    record.base[0] = depth;
    record.discharge[0] = discharge;
    record
}

/// Water down a slope of 1 in 500, let in at the left and out at the right.
fn sloping() -> Record {
    let mut record = Record::new(30);
    record.cell_length = 5_000;
    record.boundaries = [
        Boundary::fed(700_000, 500_000_000, 2_500),
        Boundary::open(40),
    ];
    for i in 0..30 {
        record.bed[i] = -10_000 * i as i64;
        (record.depth[i], record.base[i]) = (600_000, 600_000);
        record.mass[i] = 600_000 * 100;
    }
    record
}

/// `canal run` of a record with more arguments; what it says goes to standard error.
fn run(record: &Record, more: &[&str]) -> (Answer, Option<Record>) {
    let mut arguments = vec!["run", "-", "--out", "-"];
    arguments.extend(more);
    let answer = fed(&arguments, &record.draft_sheet());
    let after = (answer.status == 0).then(|| Record::open(&answer.bytes).expect("a sheet"));
    (answer, after)
}

/// By hand from the paper: both sides push alike, so friction alone is at work. k is 100 and r 4,641; with F 30 D is 4,176,900, and E of
/// 1,000 mm/s and 100 ms is 4,551.
#[test]
fn a_step_by_hand() {
    let record = passing(1_000_000, 1_000_000_000);
    for (strickler, discharge) in [
        ("30", 998_911_621),
        ("90", 999_878_951),
        ("0", 1_000_000_000),
    ] {
        let more = ["--for", "100ms", "--step", "100", "--friction", strickler];
        let (_, after) = run(&record, &more);
        let after = after.expect("it runs");
        assert_eq!((after.depth[0], after.discharge[0]), (1_000_000, discharge));
    }
}

#[test]
fn under_a_centimetre_nothing_keeps_moving() {
    for (depth, kept) in [(9_999, false), (10_000, true)] {
        let record = passing(depth, 500 * depth as i64);
        let more = ["--for", "1ms", "--friction=90", "--step=1"];
        let (_, after) = run(&record, &more);
        let after = after.expect("it runs");
        assert_eq!((after.depth[0], after.discharge[0] > 0), (depth, kept));
    }
}

#[test]
fn no_friction_is_the_run_without_the_option() {
    let (plain, _) = run(&sloping(), &["--for", "90s"]);
    let (none, _) = run(&sloping(), &["--for", "90s", "--friction", "0"]);
    assert_eq!(plain.status, 0);
    assert_eq!((plain.bytes, plain.errors), (none.bytes, none.errors));
}

#[test]
fn a_rougher_bed_slows_more() {
    let mut last = i64::MAX;
    for strickler in ["0", "80", "30", "15"] {
        let (answer, after) = run(&sloping(), &["--for", "3min", "--friction", strickler]);
        let discharge = after.expect("it runs").discharge.iter().sum();
        assert!(discharge < last, "{strickler}: {discharge}, {last}");
        last = discharge;
        let told = format!(
            " s of canal time with friction, Strickler coefficient {strickler} m^(1/3)/s: "
        );
        assert_eq!(answer.errors.contains(&told), strickler != "0");
        assert!(answer.errors.contains("The balance closes: "));
    }
}

/// The steps are the greatest that the record allows, as without friction.
#[test]
fn the_run_makes_the_librarys_steps() {
    let (_, after) = run(&sloping(), &["--for", "20s", "--friction", "25"]);
    let (mut record, mut left) = (
        Record::open(&sloping().draft_sheet()).expect("sound"),
        20_000,
    );
    while left > 0 {
        left -= record.with(|reach| {
            let t = reach.greatest_step().expect("sound").time.min(left);
            reach.step_with_friction(t, 25).expect("allowed");
            t
        });
    }
    record.with(|reach| reach.transport()).expect("a transport");
    let (written, after) = (record.to_sheet().expect("a sheet"), after.expect("it runs"));
    assert!(written == after.draft_sheet());
}

#[test]
fn a_coefficient_that_no_bed_has_is_refused_in_the_librarys_words() {
    let out = file("friction_refused.sheet");
    for (strickler, words) in [
        ("9", "Strickler coefficient 9 is below 10"),
        ("91", "Strickler coefficient 91 is above 90"),
    ] {
        let arguments = [
            "run",
            "-",
            "--for",
            "1s",
            "--friction",
            strickler,
            "--out",
            text(&out),
        ];
        let answer = fed(&arguments, &sloping().draft_sheet());
        assert_eq!((answer.status, answer.text()), (1, ""));
        let ground = Refusal::Strickler.words();
        assert_eq!(
            answer.errors,
            format!("canal: --friction: refused 17: {words}\n  ground 17: {ground}\n")
        );
        assert!(!out.exists());
    }
}

/// What is said of a coefficient is what the library refuses.
#[test]
fn the_ground_of_a_coefficient_is_the_librarys() {
    for strickler in (0..=200).chain([u64::from(u32::MAX) + 31, u64::MAX]) {
        let mut record = passing(1_000_000, 0);
        let refused = record
            .with(|reach| reach.step_with_friction(1, strickler))
            .err();
        assert_eq!(explain_strickler(strickler).map(|e| e.ground), refused);
    }
}
