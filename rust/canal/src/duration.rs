//! Canal time as a person writes it: `90s`, `15min`, `1h30min`, `250ms`; a plain number is seconds.

const UNITS: [(&str, u64); 5] = [
    ("ms", 1),
    ("s", 1_000),
    ("min", 60_000),
    ("h", 3_600_000),
    ("d", 86_400_000),
];

/// The duration in ms.
pub fn parse(text: &str) -> Result<u64, String> {
    let said = |why: &str| format!("'{text}' is not a duration: {why}");
    let mut rest = text.trim();
    let mut total = 0u64;
    if rest.is_empty() {
        return Err(said("it is empty"));
    }
    while !rest.is_empty() {
        let (number, after) = split(rest, |c| c.is_ascii_digit() || c == '.');
        let (unit, after) = split(after, |c| c.is_alphabetic());
        let unit = unit_in_ms(unit).ok_or_else(|| said("units are ms, s, min, h, d"))?;
        let part = milliseconds(number, unit).map_err(said)?;
        total = total
            .checked_add(part)
            .ok_or_else(|| said("it is too long"))?;
        if after.len() == rest.len() {
            return Err(said("a number and a unit are wanted"));
        }
        rest = after.trim_start();
    }
    Ok(total)
}

fn split(text: &str, belongs: impl Fn(char) -> bool) -> (&str, &str) {
    let end = text.find(|c| !belongs(c)).unwrap_or(text.len());
    text.split_at(end)
}

fn unit_in_ms(name: &str) -> Option<u64> {
    let name = if name.is_empty() { "s" } else { name };
    UNITS.iter().find(|u| u.0 == name).map(|u| u.1)
}

/// A decimal number of units, which must come out as whole ms.
fn milliseconds(number: &str, unit: u64) -> Result<u64, &'static str> {
    const BROKEN: &str = "a number such as 90 or 1.5 is wanted";
    const LONG: &str = "it is too long";
    let (whole, part) = number.split_once('.').unwrap_or((number, ""));
    let digits = |text: &str| text.bytes().all(|b| b.is_ascii_digit());
    if whole.is_empty() || !digits(part) || (number.contains('.') && part.is_empty()) {
        return Err(BROKEN);
    }
    if part.len() > 12 {
        return Err("it has too many decimals");
    }
    let scale = 10u128.pow(part.len() as u32);
    let value: u128 = format!("{whole}{part}").parse().map_err(|_| LONG)?;
    let scaled = value.checked_mul(unit.into()).ok_or(LONG)?;
    if scaled % scale != 0 {
        return Err("it is not a whole number of milliseconds");
    }
    u64::try_from(scaled / scale).map_err(|_| LONG)
}

/// A duration in the greatest unit that it fills, for progress.
pub fn rough(ms: u64) -> String {
    let fills = |u: &&(&str, u64)| ms >= u.1;
    let (name, unit) = *UNITS.iter().rev().find(fills).unwrap_or(&UNITS[0]);
    if unit == 1 {
        format!("{ms} ms")
    } else {
        format!("{:.1} {name}", ms as f64 / unit as f64)
    }
}

#[cfg(test)]
mod tests {
    use super::*;

    #[test]
    fn units_and_sums() {
        let cases = [
            ("90s", 90_000),
            ("15min", 900_000),
            ("2h", 7_200_000),
            ("1d", 86_400_000),
            ("7", 7_000),
            ("0.1", 100),
            ("250ms", 250),
            ("1.5h", 5_400_000),
            ("1h30min", 5_400_000),
            ("1h 30min", 5_400_000),
            ("0", 0),
        ];
        for (text, ms) in cases {
            assert_eq!(parse(text), Ok(ms), "{text}");
        }
    }

    #[test]
    fn what_is_no_duration() {
        let wrong = [
            "",
            " ",
            "h",
            "-5s",
            "5x",
            "1.2.3s",
            "1.",
            ".5",
            "0.0001s",
            "1e3",
            "99999999999999999999999999999999999999999d",
            "1h-",
            "18446744073709551615s",
            "5 s s",
        ];
        for text in wrong {
            assert!(parse(text).is_err(), "{text:?}");
        }
    }
}
