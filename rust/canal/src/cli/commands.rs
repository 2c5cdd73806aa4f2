//! What the commands do.

use super::args::Run;
use super::failure::{tell, Failure};
use super::files::{say, Place};
use super::progress::Progress;
use canal::balance::{Balance, Held};
use canal::describe::{describe, place};
use canal::explain::{explain, explain_outlets, explain_strickler, refused};
use canal::outlets::{self, List};
use canal::record::Record;
use canal::run::{Made, Stopped};
use canal::table::{self, Table};
use canal::units::{counted, metres_of_mm, seconds};
use canal::{plot as plots, run as runs};
use jemmyfern::{cells_in, Refusal};

pub fn make(table: &Place, sheet: &Place) -> Result<(), Failure> {
    let wrong = |words: String| Failure::Wrong(format!("{table}: {words}"));
    let made = table::read(&text(table)?).map_err(|error| wrong(error.to_string()))?;
    let draft = made.record.draft_sheet();
    match Record::open(&draft) {
        Ok(_) => sheet.write(&draft),
        Err(refusal) => Err(wrong(refused(&draft, refusal) + &lines_of(&draft, &made))),
    }
}

/// What a person wrote.
fn text(place: &Place) -> Result<String, Failure> {
    String::from_utf8(place.read()?)
        .map_err(|_| Failure::Wrong(format!("{place}: this is not text")))
}

/// Where the first cell that is refused stands in the table.
fn lines_of(draft: &[u8], table: &Table) -> String {
    let first = explain(draft).and_then(|e| e.faults.into_iter().find_map(|f| f.cell));
    match first.and_then(|cell| Some((cell, table.lines.get(cell)?))) {
        Some((cell, line)) => format!("\n  cell {cell} is on line {line}"),
        None => String::new(),
    }
}

pub fn show(sheet: &Place) -> Result<(), Failure> {
    let record = open(sheet)?;
    say(&table::write(&record))
}

pub fn inspect(sheet: &Place) -> Result<(), Failure> {
    let bytes = sheet.read()?;
    match Record::open(&bytes) {
        Ok(mut record) => {
            let words = describe(&bytes, &mut record).map_err(|r| refusal(sheet, r))?;
            say(&words)
        }
        // the words are what was asked for, so they go where the others do
        Err(ground) => match say(&format!("{}\n", no_sheet(&bytes, ground))) {
            Ok(()) | Err(Failure::Closed) => Err(Failure::Refused),
            Err(failure) => Err(failure),
        },
    }
}

pub fn run(run: &Run) -> Result<(), Failure> {
    let mut record = open_with(&run.sheet, run.outlets.as_ref())?;
    let before = Held::by(&record);
    let mut progress = Progress::new(run.time, run.quiet);
    let (time, strickler) = (run.time, run.strickler);
    let show = |made: &Made| progress.show(made);
    let made = runs::run(&mut record, time, run.step, strickler, show);
    progress.clear();
    let made = made.map_err(|stopped| Failure::Wrong(stop(run, &stopped, &record)))?;
    let balance = Balance::of(before, &record);
    if let Some(out) = &run.out {
        let sheet = record.to_sheet().map_err(|r| refusal(&run.sheet, r))?;
        out.write(&sheet)?;
    }
    let drawn = match &record.outlets[..] {
        [] => String::new(),
        outlets => format!("\n{}", outlets::drawn(outlets, record.cell_length)),
    };
    let reported = report(
        run,
        &format!("{}{balance}{drawn}", made_line(&made, strickler)),
    );
    match balance.closes() {
        true => reported,
        false => Err(Failure::Wrong("the balance does not close".into())),
    }
}

/// To standard output, unless the sheet goes there.
fn report(run: &Run, words: &str) -> Result<(), Failure> {
    if run.quiet {
        return Ok(());
    }
    if run.out.as_ref().is_some_and(Place::is_standard) {
        tell(words);
        return Ok(());
    }
    say(words)
}

fn made_line(made: &Made, strickler: u64) -> String {
    let (time, steps) = (seconds(made.time), counted(made.steps, "step"));
    let transports = counted(made.transports, "transport");
    let friction = match strickler {
        0 => String::new(),
        f => format!(" with friction, Strickler coefficient {f} m^(1/3)/s"),
    };
    format!("{time} s of canal time{friction}: {steps}, {transports} (the last one at the end)\n")
}

fn stop(run: &Run, stopped: &Stopped, record: &Record) -> String {
    if stopped.refusal == Refusal::Strickler {
        return no_strickler(run.strickler);
    }
    let (sheet, made) = (&run.sheet, &stopped.made);
    let (refusal, time) = (stopped.refusal, seconds(made.time));
    let steps = counted(made.steps, "step");
    let why = match refusal {
        Refusal::Cfl => too_long(stopped, record),
        Refusal::Depth => too_deep(stopped, record),
        _ => String::new(),
    };
    format!("{sheet}: {refusal}\n  at {time} s of canal time, after {steps}{why}\n  nothing was written")
}

fn too_long(stopped: &Stopped, record: &Record) -> String {
    let Some(greatest) = stopped.greatest else {
        return String::new();
    };
    let (step, most) = (stopped.step, greatest.time);
    let place = place(greatest.place, record.cells());
    format!(": a step of {step} ms, where {most} ms is the greatest, set by {place}")
}

fn too_deep(stopped: &Stopped, record: &Record) -> String {
    let step = stopped.step;
    match runs::fills_most(record, step) {
        Some(cell) => {
            let depth = record.depth[cell];
            format!(": a step of {step} ms would overfill cell {cell}, now {depth} µm deep")
        }
        None => ": even a step of 1 ms would overfill a cell".into(),
    }
}

pub fn plot(sheet: &Place, picture: &Place) -> Result<(), Failure> {
    let record = open(sheet)?;
    let cells = counted(record.cells() as u64, "cell");
    let length = metres_of_mm(record.cell_length);
    let title = match sheet {
        Place::Standard => format!("{cells} of {length} m"),
        Place::File(path) => {
            let name = path.file_name().unwrap_or_default();
            format!("{}: {cells} of {length} m", name.to_string_lossy())
        }
    };
    picture.write(plots::chart(&title, &record).svg().as_bytes())
}

/// The record of a sheet, or the words of its refusal.
fn open(sheet: &Place) -> Result<Record, Failure> {
    open_with(sheet, None)
}

/// The record of a sheet with the outlets of a list.
fn open_with(sheet: &Place, outlets: Option<&Place>) -> Result<Record, Failure> {
    let bytes = sheet.read()?;
    let list = outlets.map_or(Ok(List::default()), read_list)?;
    Record::open_with(&bytes, list.outlets.clone()).map_err(|ground| {
        let (place, words) = match (ground, outlets) {
            (Refusal::Outlets, Some(place)) => (place, no_list(&bytes, &list)),
            _ => (sheet, no_sheet(&bytes, ground)),
        };
        Failure::Wrong(format!("{place}: {words}"))
    })
}

fn read_list(place: &Place) -> Result<List, Failure> {
    outlets::read(&text(place)?).map_err(|error| Failure::Wrong(format!("{place}: {error}")))
}

/// What is wrong with a list for the reach of a sheet that is sound.
fn no_list(sheet: &[u8], list: &List) -> String {
    let explanation = explain_outlets(list, cells_in(sheet));
    explanation.map_or(Refusal::Outlets.to_string(), |e| e.to_string())
}

/// The sheet has no part in it.
fn no_strickler(strickler: u64) -> String {
    let explanation = explain_strickler(strickler);
    let words = explanation.map_or(Refusal::Strickler.to_string(), |e| e.to_string());
    format!("--friction: {words}")
}

/// What is wrong with the bytes. A table is easily given in the place of its sheet.
fn no_sheet(bytes: &[u8], ground: Refusal) -> String {
    let mut words = refused(bytes, ground);
    if table::looks_like_one(bytes) {
        words += "\n  this looks like a table: `canal make` it first";
    }
    words
}

fn refusal(sheet: &Place, refusal: Refusal) -> Failure {
    Failure::Wrong(format!("{sheet}: {refusal}"))
}
