//! Arguments to commands.

use super::failure::Failure;
use super::files::Place;
use canal::duration;
use canal::units::counted;
use std::collections::VecDeque;
use std::ffi::OsString;

pub const USAGE: &str = "\
canal makes sheets of a canal reach, says what they hold, runs and draws them.

  canal make TABLE SHEET       a table that you wrote to a sheet
  canal show SHEET             a sheet back to its table
  canal inspect SHEET          what a sheet holds, or why it is refused
  canal run SHEET --for TIME   let the water run, and account for every unit
      --outlets LIST           outlets along the reach that draw water from it
      --out SHEET              write the sheet as it is after the run
      --step MS                steps of MS milliseconds (default: the greatest allowed)
      --friction F             Strickler coefficient, 10 to 90 (default: 0, no friction)
      --quiet                  no report
  canal plot SHEET OUT.svg     draw depth over bed, discharge, concentration
  canal help | --version

A file named - is standard input or output. TIME is 90s, 15min, 2h, 1d, 250ms,
1h30min, or a plain number of seconds. Cells are counted from 0. The greatest step is
told with where the water is fastest: among equals the highest place, furthest right.

F is in m^(1/3)/s, and a large one is a smooth bed: concrete has about 60 to 80, earth
about 30 to 40, a bed full of weeds about 15 to 25. Without friction water on a slope
only speeds up. With it a cell under 1 cm deep has no discharge after a step.

A table:

  # two cells between walls
  cell_length 1000             # mm, 100 to 100000
  left  wall                   # or: open concentration 0
  right wall                   # or: fed depth 500000 discharge 0 concentration 1200
  cells                        # then a row a cell:
  # bed  depth  discharge  mass
  0    1000000  0    3000000
  0     100000  0          0   # 'x 20' at the end of a row makes 20 such cells

Bed and depth are in micrometres, discharge in micrometres times mm/s, concentration
in micrograms per litre, mass in grains (micrometres times micrograms per litre).

A list of outlets, at most 32:

  # cell  want
  0  300                       # draws up to 300 micrometres of depth per step
  1  4000000                   # draws all that its cell can give

Exit status: 0 done, 1 refused or wrong input, 2 wrong arguments, 3 a file could not
be read or written.
";

#[derive(Debug)]
pub enum Command {
    Help,
    Version,
    Make { table: Place, sheet: Place },
    Show { sheet: Place },
    Inspect { sheet: Place },
    Run(Run),
    Plot { sheet: Place, picture: Place },
}

#[derive(Debug)]
pub struct Run {
    pub sheet: Place,
    /// ms
    pub time: u64,
    pub outlets: Option<Place>,
    pub out: Option<Place>,
    /// ms
    pub step: Option<u64>,
    /// m^(1/3)/s; 0 is no friction
    pub strickler: u64,
    pub quiet: bool,
}

pub fn parse(arguments: Vec<OsString>) -> Result<Command, Failure> {
    let mut rest = VecDeque::from(arguments);
    let Some(name) = rest.pop_front() else {
        return Err(Failure::Usage(String::new()));
    };
    let name = name.to_string_lossy();
    if asks_help(&name) || rest.iter().any(|a| asks_help(&a.to_string_lossy())) {
        return Ok(Command::Help);
    }
    command(&name, rest).map_err(|failure| match failure {
        Failure::Usage(words) => Failure::Usage(words + &usage_line(&name)),
        other => other,
    })
}

/// The one line of a known command: the whole usage would push the message off the screen.
fn usage_line(command: &str) -> String {
    let wanted = match command {
        "make" => "TABLE SHEET",
        "show" | "inspect" => "SHEET",
        "run" => {
            "SHEET --for TIME [--outlets LIST] [--out SHEET] [--step MS] [--friction F] [--quiet]"
        }
        "plot" => "SHEET OUT.svg",
        _ => return String::new(),
    };
    format!("\nusage: canal {command} {wanted}")
}

fn command(name: &str, rest: VecDeque<OsString>) -> Result<Command, Failure> {
    match name {
        "help" => Ok(Command::Help),
        "--version" | "-V" => files(name, rest, []).map(|[]| Command::Version),
        "make" => {
            let [table, sheet] = from_and_to(name, rest, ["TABLE", "SHEET"])?;
            Ok(Command::Make { table, sheet })
        }
        "show" => files(name, rest, ["SHEET"]).map(|[sheet]| Command::Show { sheet }),
        "inspect" => files(name, rest, ["SHEET"]).map(|[sheet]| Command::Inspect { sheet }),
        "run" => run(rest).map(Command::Run),
        "plot" => {
            let [sheet, picture] = from_and_to(name, rest, ["SHEET", "OUT.svg"])?;
            Ok(Command::Plot { sheet, picture })
        }
        _ => Err(Failure::Usage(format!("there is no command '{name}'"))),
    }
}

fn asks_help(argument: &str) -> bool {
    matches!(argument, "--help" | "-h")
}

/// Exactly the named files and no option.
fn files<const N: usize>(
    command: &str,
    rest: VecDeque<OsString>,
    names: [&str; N],
) -> Result<[Place; N], Failure> {
    for argument in &rest {
        if is_option(argument) {
            return Err(unknown(command, argument));
        }
    }
    let given: Vec<Place> = rest.into_iter().map(Place::from).collect();
    given.try_into().map_err(|given: Vec<Place>| {
        let wanted = if N == 0 { "nothing" } else { &names.join(" ") };
        let given = counted(given.len() as u64, "argument");
        Failure::Usage(format!("{command} wants {wanted}, not {given}"))
    })
}

/// A file to read, and one of another kind to write, which must not take its place.
fn from_and_to(
    command: &str,
    rest: VecDeque<OsString>,
    names: [&str; 2],
) -> Result<[Place; 2], Failure> {
    let [from, to] = files(command, rest, names)?;
    if to.overwrites(&from) {
        let [one, other] = names;
        return Err(Failure::Usage(format!(
            "{one} and {other} are the same file, {to}"
        )));
    }
    Ok([from, to])
}

fn is_option(argument: &OsString) -> bool {
    let text = argument.to_string_lossy();
    text.starts_with('-') && text != "-"
}

fn unknown(command: &str, argument: &OsString) -> Failure {
    let option = argument.to_string_lossy();
    Failure::Usage(format!("{command} does not know the option {option}"))
}

fn run(mut rest: VecDeque<OsString>) -> Result<Run, Failure> {
    let (mut time, mut step, mut strickler, mut quiet) = (None, None, None, false);
    let (mut outlets, mut out) = (None, None);
    let mut places = VecDeque::new();
    while let Some(argument) = rest.pop_front() {
        if !is_option(&argument) {
            places.push_back(argument);
            continue;
        }
        let (option, attached) = split_option(&argument);
        let mut value = || {
            let value = attached.clone().or_else(|| rest.pop_front());
            value.ok_or_else(|| Failure::Usage(format!("{option} wants a value")))
        };
        match option.as_str() {
            "--for" => once(&option, &mut time, duration_of(value()?)?)?,
            "--outlets" => once(&option, &mut outlets, Place::from(value()?))?,
            "--out" => once(&option, &mut out, Place::from(value()?))?,
            "--step" => once(&option, &mut step, step_of(value()?)?)?,
            "--friction" => once(&option, &mut strickler, strickler_of(value()?)?)?,
            "--quiet" | "-q" if attached.is_none() => quiet = true,
            _ => return Err(unknown("run", &argument)),
        }
    }
    let [sheet] = files("run", places, ["SHEET"])?;
    let time = time.ok_or_else(|| Failure::Usage("run wants --for TIME".into()))?;
    if let Some(list) = &outlets {
        apart(&sheet, list, out.as_ref())?;
    }
    Ok(Run {
        sheet,
        time,
        outlets,
        out,
        step,
        strickler: strickler.unwrap_or(0),
        quiet,
    })
}

/// A list of outlets is not read from where the sheet comes from, nor written over.
fn apart(sheet: &Place, list: &Place, out: Option<&Place>) -> Result<(), Failure> {
    if sheet.is_standard() && list.is_standard() {
        let words = "SHEET and --outlets are both standard input";
        return Err(Failure::Usage(words.into()));
    }
    match out {
        Some(out) if out.overwrites(list) => Err(Failure::Usage(format!(
            "--outlets and --out are the same file, {out}"
        ))),
        _ => Ok(()),
    }
}

/// `--for=90s` is the same as `--for 90s`. A name that is no text must stand by itself, since it cannot be split.
fn split_option(argument: &OsString) -> (String, Option<OsString>) {
    match argument.to_str().and_then(|text| text.split_once('=')) {
        Some((option, value)) => (option.into(), Some(value.into())),
        None => (argument.to_string_lossy().into_owned(), None),
    }
}

fn once<T>(option: &str, place: &mut Option<T>, value: T) -> Result<(), Failure> {
    match place.replace(value) {
        None => Ok(()),
        Some(_) => Err(Failure::Usage(format!("{option} is given twice"))),
    }
}

fn duration_of(value: OsString) -> Result<u64, Failure> {
    let time = duration::parse(&value.to_string_lossy());
    time.map_err(|words| Failure::Usage(format!("--for: {words}")))
}

fn step_of(value: OsString) -> Result<u64, Failure> {
    let text = value.to_string_lossy();
    let step = text.parse().ok().filter(|ms| (1..=1000).contains(ms));
    step.ok_or_else(|| {
        Failure::Usage(format!(
            "--step: '{text}' is not a whole number of ms in 1..1000"
        ))
    })
}

/// Whether it is one that a bed has is the library's to say.
fn strickler_of(value: OsString) -> Result<u64, Failure> {
    let text = value.to_string_lossy();
    let words = format!("--friction: '{text}' is not a whole number, 0 or 10 to 90");
    text.parse().map_err(|_| Failure::Usage(words))
}
