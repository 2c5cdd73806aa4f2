//! docs/VALIDATION.md shows what the program prints and draws.

use std::fs;
use validation::{pictures, tables};

const DOCS: &str = concat!(env!("CARGO_MANIFEST_DIR"), "/../../docs");

#[test]
fn the_page_has_the_tables_and_the_pictures() {
    let page = fs::read_to_string(format!("{DOCS}/VALIDATION.md")).expect("the page");
    for table in tables::all().expect("no case is refused") {
        assert!(
            page.contains(&table.text),
            "{}:\n{}",
            table.title,
            table.text
        );
    }
    for (name, chart) in pictures::all().expect("no case is refused") {
        assert!(page.contains(&format!("(validation/{name})")), "{name}");
        let stored = fs::read_to_string(format!("{DOCS}/validation/{name}")).expect("drawn");
        assert!(
            stored == chart.svg(),
            "docs/validation/{name} is another picture"
        );
    }
}
