//! Runs the cases of report 4529 and those of uniform flow, prints the tables of docs/VALIDATION.md and draws its pictures.

use std::error::Error;
use std::fs;
use validation::{pictures, tables};

const PICTURES: &str = concat!(env!("CARGO_MANIFEST_DIR"), "/../../docs/validation");

fn main() -> Result<(), Box<dyn Error>> {
    for table in tables::all()? {
        println!("{}\n\n{}", table.title, table.text);
    }
    fs::create_dir_all(PICTURES)?;
    for (name, chart) in pictures::all()? {
        fs::write(format!("{PICTURES}/{name}"), chart.svg())?;
    }
    Ok(())
}
