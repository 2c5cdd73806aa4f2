//! The stored cases of the programs: what they must write is what the second implementation writes, and the two-cell run is the paper's.

use std::fs;
use std::path::{Path, PathBuf};

fn crates() -> PathBuf {
    Path::new(env!("CARGO_MANIFEST_DIR")).join("../../crates")
}

fn read(path: &str) -> Vec<u8> {
    fs::read(crates().join(path)).unwrap_or_else(|e| panic!("{path}: {e}"))
}

#[test]
fn stored_cases_are_the_second_implementations() {
    let names = String::from_utf8(read("cases/args")).expect("names are text");
    let text: String = names
        .lines()
        .map(|name| reference::program(&read(&format!("cases/data/{name}"))))
        .collect();
    assert_eq!(text.as_bytes(), read("cases/stdout"));
}

/// Every ground that an input can reach is stored: 4, 8, 9 and 13 cannot be, of a record that the program has opened itself.
#[test]
fn stored_cases_meet_every_ground() {
    let text = String::from_utf8(read("cases/stdout")).expect("text");
    for ground in [1, 2, 3, 5, 6, 7, 10, 11, 12] {
        let line = format!("refused {ground}");
        assert!(text.lines().any(|l| l == line), "{line}");
    }
    assert!(text.lines().any(|l| l == "cells 512"));
}

#[test]
fn the_two_cell_run_is_the_papers() {
    let paper =
        "cells 2\n0 907132 242795920 2721396\n1 192868 242795920 278604\nbook 0 0 0 0 0 0 0 0\n";
    assert_eq!(read("jemmyfern/stdout"), paper.as_bytes());
    assert_eq!(reference::program(&read("jemmyfern/stdin")), paper);
}
