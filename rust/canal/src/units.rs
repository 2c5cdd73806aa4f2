//! Whole units in the ones that people use, exactly: no value goes through a float.

/// `value` divided by ten to the power of `places`, as a decimal number without idle zeros.
pub fn scaled(value: i128, places: usize) -> String {
    let digits = format!("{:0>width$}", value.unsigned_abs(), width = places + 1);
    let (whole, part) = digits.split_at(digits.len() - places);
    let part = part.trim_end_matches('0');
    let sign = if value < 0 { "-" } else { "" };
    let point = if part.is_empty() { "" } else { "." };
    format!("{sign}{whole}{point}{part}")
}

pub fn metres_of_um(um: i128) -> String {
    scaled(um, 6)
}

pub fn metres_of_mm(mm: u64) -> String {
    scaled(mm.into(), 3)
}

/// Micrometres times mm/s as square metres per second: a volume per second and metre of width.
pub fn square_metres_per_second(discharge: i64) -> String {
    scaled(discharge.into(), 9)
}

/// Micrometres of depth of one cell as cubic metres per metre of width: 10^-6 m of depth times 10^-3 m of length for each mm of the cell.
pub fn cubic_metres(water: u128, cell_length: u64) -> String {
    scaled(times(water, cell_length), 9)
}

/// Grains as grams per metre of width: one micrometre of a cell is 10^-6 litre per mm of its length, and at concentration 1 a litre holds 10^-6 g.
pub fn grams(mass: u128, cell_length: u64) -> String {
    scaled(times(mass, cell_length), 12)
}

fn times(amount: u128, cell_length: u64) -> i128 {
    let product = amount.saturating_mul(cell_length.into());
    i128::try_from(product).unwrap_or(i128::MAX)
}

/// ms as seconds.
pub fn seconds(ms: u64) -> String {
    scaled(ms.into(), 3)
}

/// "1 cell", "2 cells"
pub fn counted(number: u64, name: &str) -> String {
    let plural = if number == 1 { "" } else { "s" };
    format!("{number} {name}{plural}")
}

#[cfg(test)]
mod tests {
    use super::*;

    #[test]
    fn scaling_is_exact() {
        assert_eq!(scaled(1_234_500, 6), "1.2345");
        assert_eq!(scaled(-5, 3), "-0.005");
        assert_eq!(scaled(0, 9), "0");
        assert_eq!(scaled(7, 0), "7");
        assert_eq!(scaled(10_000_000, 6), "10");
    }

    #[test]
    fn water_and_mass_of_a_cell_of_one_metre() {
        // a metre of water on a square metre is a cubic metre; at 1 mg/l it holds a gram
        assert_eq!(cubic_metres(1_000_000, 1000), "1");
        assert_eq!(grams(1_000_000 * 1000, 1000), "1");
    }
}
