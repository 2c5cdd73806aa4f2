//! The example controllers in C and in Rust, run on the example's sheet: both print and write what the second implementation does.

mod cc;

use reference::record::{Columns, End};
use reference::Outlet;
use std::fmt::Write;
use std::path::PathBuf;
use std::process::Command;

const HOUR_MS: u64 = 3_600_000;

/// The hour of examples/controller.c on the second implementation, which has the paper's words: the text and the sheet.
fn expected(sheet: &[u8], cells: usize, want: Option<u64>, strickler: u64) -> (String, Vec<u8>) {
    let mut c = Columns::of_cells(cells);
    let mut outlets = want.map_or(vec![], |want| {
        [cells / 3, 2 * cells / 3]
            .map(|i| Outlet::new(i as u64, want))
            .into()
    });
    let opened = reference::open(sheet, &mut c, &mut outlets);
    assert_eq!(opened.refusal, 0);
    let (x, mut boundaries, mut ledger) = (opened.x, opened.ends, opened.book);
    let mut doses = [(HOUR_MS / 3, 40_000), (HOUR_MS / 3 * 2, 500)].iter();
    let mut dose = doses.next();
    let (mut elapsed, mut steps, mut transports) = (0, 0, 0);
    while elapsed < HOUR_MS {
        if let Some(&(from, concentration)) = dose.filter(|(from, _)| elapsed >= *from) {
            assert!(elapsed >= from);
            let head = End {
                concentration,
                ..boundaries[0]
            };
            let new = [head, boundaries[1]];
            let a = reference::set_ends(&mut c, &mut outlets, x, boundaries, ledger, new);
            assert_eq!(a.refusal, 0);
            (boundaries, ledger) = (a.ends, a.book);
            transports += 1;
            dose = doses.next();
            if let (None, Some(first)) = (dose, outlets.first_mut()) {
                first.want = 0;
            }
        }
        let most = reference::greatest_step(&c, &outlets, x, boundaries, ledger).t;
        let t = most.min(HOUR_MS - elapsed);
        let a = reference::step(&mut c, &mut outlets, x, boundaries, ledger, t, strickler);
        assert_eq!(a.refusal, 0);
        ledger = a.book;
        transports += u32::from(a.settled);
        elapsed += t;
        steps += 1;
    }
    let a = reference::settle(&mut c, &mut outlets, x, boundaries, ledger);
    assert_eq!(a.refusal, 0);
    ledger = a.book;
    let mut out = vec![0; reference::sheet::sheet_length(cells)];
    assert_eq!(
        reference::write(&c, &outlets, x, boundaries, ledger, &mut out).refusal,
        0
    );
    let mut text = format!(
        "cells {cells} of {x} mm\nsteps {steps} settlings {}\n",
        transports + 1
    );
    for (side, t) in [("left", ledger.left), ("right", ledger.right)] {
        writeln!(
            text,
            "{side} water in {} out {} nutrient in {} out {}",
            t.water_in, t.water_out, t.nutrient_in, t.nutrient_out
        )
        .unwrap();
    }
    for o in &outlets {
        let Outlet {
            cell,
            water,
            nutrient,
            ..
        } = o;
        writeln!(text, "outlet at {cell} water {water} nutrient {nutrient}").unwrap();
        assert_eq!(
            (*water > 0, *nutrient > 0),
            (want > Some(0), want > Some(0)),
            "{o:?}"
        );
    }
    writeln!(text, "written and opened again: {} bytes", out.len()).unwrap();
    (text, out)
}

/// Cargo builds the examples beside the tests.
fn in_rust() -> PathBuf {
    let test = std::env::current_exe().unwrap();
    test.ancestors().nth(2).unwrap().join("examples/controller")
}

#[test]
fn both_controllers_follow_the_hour() {
    let folder = cc::folder("examples");
    let file = cc::kept("examples/reach.sheet");
    let sheet = std::fs::read(&file).unwrap();
    let in_c = cc::compiled("examples/controller.c", "c11", &folder);
    for program in [in_c, in_rust()] {
        let out = folder.join("out.sheet");
        let run = |more: &[&str]| {
            let mut command = Command::new(&program);
            command.arg(&file).arg(&out).args(more).output().unwrap()
        };
        // without outlets, with modest ones, and with such as take all that their cells can give; then over a bed of earth and one of weeds
        let cases: [(&[&str], Option<u64>, u64); 6] = [
            (&[], None, 0),
            (&["300"], Some(300), 0),
            (&["4000000"], Some(4_000_000), 0),
            (&["300", "0"], Some(300), 0),
            (&["300", "35"], Some(300), 35),
            (&["0", "20"], Some(0), 20),
        ];
        let mut sheets = Vec::new();
        for (more, want, strickler) in cases {
            let (text, written) = expected(&sheet, 40, want, strickler);
            let answer = run(more);
            assert!(answer.status.success(), "{answer:?}");
            assert_eq!(String::from_utf8(answer.stdout).unwrap(), text);
            assert_eq!(std::fs::read(&out).unwrap(), written);
            sheets.push(written);
        }
        assert!(sheets[1] == sheets[3] && sheets[3] != sheets[4] && sheets[0] != sheets[5]);
        // a want too great, a coefficient just beyond its limits, and what is no number
        for (more, number) in [
            (&["4000001"][..], "refused 16"),
            (&["300", "9"], "refused 17"),
            (&["300", "91"], "refused 17"),
        ] {
            let refused = run(more);
            assert_eq!(refused.status.code(), Some(1), "{refused:?}");
            let words = String::from_utf8(refused.stderr).unwrap();
            assert!(words.contains(number), "{words}");
        }
        for more in [&["much"][..], &["300", "rough"], &["300", "30", "3"]] {
            assert_eq!(run(more).status.code(), Some(2));
        }
        // a sheet that is refused, a file that is not there, no argument
        std::fs::write(folder.join("bad.sheet"), [0; 80]).unwrap();
        let bad = Command::new(&program)
            .arg(folder.join("bad.sheet"))
            .arg(&out)
            .output()
            .unwrap();
        assert_eq!(bad.status.code(), Some(1), "{bad:?}");
        assert!(String::from_utf8(bad.stderr).unwrap().contains("refused 1"));
        let none = Command::new(&program)
            .arg(folder.join("none.sheet"))
            .arg(&out)
            .output()
            .unwrap();
        assert_eq!(none.status.code(), Some(3), "{none:?}");
        let usage = Command::new(&program).output().unwrap();
        assert_eq!(usage.status.code(), Some(2));
    }
    std::fs::remove_dir_all(&folder).unwrap();
}
