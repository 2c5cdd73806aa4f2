//! The files in the repository that the tool made: the example's sheet, and the README's picture.

use crate::tools::*;
use std::path::PathBuf;

/// A file of the repository.
fn kept(name: &str) -> PathBuf {
    PathBuf::from(env!("CARGO_MANIFEST_DIR"))
        .join("../..")
        .join(name)
}

#[test]
fn the_examples_sheet_is_made_from_its_table() {
    let made = call(&["make", text(&kept("examples/reach.txt")), "-"]);
    assert_eq!((made.status, &*made.errors), (0, ""));
    let sheet = std::fs::read(kept("examples/reach.sheet")).expect("there");
    assert!(made.bytes == sheet);
}

/// The reach eight minutes on: `canal run examples/reach.sheet --for 8min --quiet --out ..`, then `canal plot`.
#[test]
fn the_readmes_picture_is_a_plot_of_the_example() {
    let (later, picture) = (file("reach-after-8min.sheet"), file("reach.svg"));
    let reach = kept("examples/reach.sheet");
    let run = [
        "run",
        text(&reach),
        "--for",
        "8min",
        "--quiet",
        "--out",
        text(&later),
    ];
    assert_eq!(call(&run).status, 0);
    assert_eq!(call(&["plot", text(&later), text(&picture)]).status, 0);
    let drawn = std::fs::read_to_string(&picture).expect("there");
    let stored = std::fs::read_to_string(kept("docs/reach.svg")).expect("there");
    assert!(drawn == stored, "docs/reach.svg is another picture");
}
