//! Times in lines and columns.

use std::cell::Cell;
use std::hint::black_box;
use std::time::Instant;

const ROUNDS: usize = 25;

/// Nanoseconds a call, over all inputs once.
pub fn round<'a, I, O>(inputs: &'a [I], mut call: impl FnMut(&'a I) -> O) -> f64 {
    let start = Instant::now();
    for input in inputs {
        black_box(call(black_box(input)));
    }
    start.elapsed().as_secs_f64() * 1e9 / inputs.len() as f64
}

/// Of rounds that do nothing but their calls.
pub fn nothing() -> f64 {
    0.0
}

/// The argument is part of the name, or there is none.
fn picked(name: &str) -> bool {
    let only = std::env::args().nth(1).unwrap_or_default();
    name.contains(&only)
}

/// Lines under one heading, which is printed before the first of them that is picked.
pub struct Table<const N: usize> {
    calls: &'static str,
    columns: [&'static str; N],
    /// names of the first column over each other one
    ratios: &'static [&'static str],
    headed: Cell<bool>,
}

impl Table<2> {
    pub fn of_two(calls: &'static str, columns: [&'static str; 2]) -> Table<2> {
        Table::new(calls, columns, &["ratio"])
    }
}

impl Table<3> {
    pub fn of_three() -> Table<3> {
        let columns = ["proved", "plain Rust", "plain C"];
        Table::new("a call", columns, &["to Rust", "to C"])
    }
}

impl<const N: usize> Table<N> {
    fn new(
        calls: &'static str,
        columns: [&'static str; N],
        ratios: &'static [&'static str],
    ) -> Self {
        let headed = Cell::new(false);
        Table {
            calls,
            columns,
            ratios,
            headed,
        }
    }

    /// Prints nanoseconds a call of each, measured in turns, and the first over each other one, with what it is to be at most. Gives the first, or no
    /// number where the line is not picked. What each round does besides the call is `apart`, measured in turns too and taken off.
    pub fn line(
        &self,
        name: &str,
        rounds: [&dyn Fn() -> f64; N],
        apart: &dyn Fn() -> f64,
        aims: &[impl Into<Option<f64>> + Copy],
    ) -> f64 {
        if !picked(name) {
            return f64::NAN;
        }
        if !self.headed.replace(true) {
            print_line(self.calls, self.columns.map(|head| head.to_string()), "");
        }
        let mut least = [f64::MAX; N];
        let mut besides = f64::MAX;
        for _ in 0..ROUNDS {
            besides = besides.min(apart());
            for (least, round) in least.iter_mut().zip(rounds) {
                *least = least.min(round());
            }
        }
        let least = least.map(|time| time - besides);
        let others = self.ratios.iter().zip(&least[1..]).zip(aims);
        let ratios = others.map(|((to, other), &aim)| {
            let aim = aim.into().map(|most| format!(", aim at most {most:?}"));
            format!("{to} {:.2}{}", least[0] / other, aim.unwrap_or_default())
        });
        print_line(
            name,
            least.map(time),
            &ratios.collect::<Vec<_>>().join("; "),
        );
        least[0]
    }
}

/// Prints the first of two times over the second, where both were measured.
pub fn print_ratio(name: &str, times: [f64; 2], aim: &str) {
    let ratio = times[0] / times[1];
    if !ratio.is_nan() {
        print_line(
            name,
            times.map(time),
            &format!("ratio {ratio:.2}, aim {aim}"),
        );
    }
}

fn time(nanoseconds: f64) -> String {
    format!("{nanoseconds:.1} ns")
}

fn print_line<const N: usize>(name: &str, columns: [String; N], ratios: &str) {
    let columns = columns.map(|column| format!("{column:>15}"));
    println!(
        "{}",
        format!("{name:<41}{}   {ratios}", columns.concat()).trim_end()
    );
}
